// Generated from crates/odht_tool_core/src/arguments/draft.rt by make generate.
//! A command of which some words are parsed.
use super::delimiters::delimiter_named;
use super::{is_stream, Command, CommandMisuse, Duplicates, Misuse, Reading, Request};
use crate::generated::base::load::Percent;
use crate::generated::core::digits::parse_number;
use crate::generated::core::forms::{Kind, Kinds};
use crate::generated::core::generated::topics::{Setting, Topic};
use crate::generated::core::shapes::Hash;
use crate::generated::core::targets::Allowed;
use crate::generated::raw::memory_layout::DEFAULT_GROUPS;
use crate::host::prelude::*;
use crate::shim::Global;

mod commands;

/// A command of which some words are parsed.
pub(super) struct Draft {
    alloc: Global,
    topic: Topic,
    // The file and those after it, without options.
    words: Vec<String>,
    // The option whose value is the next word.
    waiting: Option<Setting>,
    // Whether `--` was read, after which no word is an option.
    is_ended: bool,
    at: Option<usize>,
    hash: Option<Hash>,
    kinds: Kinds,
    duplicates: Duplicates,
    delimiter: u8,
    percent: Option<Percent>,
    capacity: usize,
    is_checked: bool,
    is_help: bool,
    is_slots: bool,
    is_values: bool,
    is_json: bool,
    is_null: bool,
    is_whole: bool,
    is_check: bool,
    allowed: Allowed,
    has_progress: bool,
}

impl Draft {
    pub(super) fn new(alloc: Global, topic: Topic) -> Draft {
        Draft {
            alloc,
            topic,
            words: crate::host::lists::empty(alloc),
            waiting: None,
            is_ended: false,
            at: None,
            hash: None,
            kinds: Kinds { key: None, value: None, hash: None },
            duplicates: Duplicates::Last,
            delimiter: b'\t',
            percent: None,
            capacity: 12,
            is_checked: false,
            is_help: false,
            is_slots: false,
            is_values: false,
            is_json: false,
            is_null: false,
            is_whole: false,
            is_check: false,
            allowed: Allowed::new(),
            has_progress: false,
        }
    }

    /// Parses the next word: the value of the option that waits for one, if one does.
    pub(super) fn read(&mut self, word: String) -> Result<(), CommandMisuse> {
        if let Some(setting) = self.waiting {
            self.waiting = None;
            return self.set(setting, word.as_str());
        }
        if !self.is_ended && self.is_null_option(word.as_str()) {
            self.is_null = true;
            return Ok(());
        }
        if self.is_ended || !is_option(word.as_str()) {
            return self.words.try_push(word).or(Err(CommandMisuse::Memory));
        }
        match word.as_str() {
            "--" => {
                self.is_ended = true;
                Ok(())
            }
            "-h" => {
                self.is_help = true;
                Ok(())
            }
            _ => self.read_option(word),
        }
    }

    // Whether the word is the short name of `--null`, which the command has.
    fn is_null_option(&self, word: &str) -> bool {
        word == "-0" && Setting::named(self.topic, "--null").is_some()
    }

    // Parses an option, with its value where that is in the same word.
    fn read_option(&mut self, word: String) -> Result<(), CommandMisuse> {
        let (name, value) = name_and_value(word.as_str());
        let Some(setting) = Setting::named(self.topic, name) else {
            return Err(CommandMisuse::UnknownOption(word));
        };
        match (setting.wanted(), value) {
            (None, None) => self.switch(setting),
            (None, Some(_)) => return Err(CommandMisuse::NoValueTaken(setting)),
            (Some(_), None) => self.waiting = Some(setting),
            (Some(_), Some(value)) => return self.set(setting, value),
        }
        Ok(())
    }

    // Switches on what an option without a value stands for.
    fn switch(&mut self, setting: Setting) {
        match setting {
            Setting::Help => self.is_help = true,
            Setting::Slots => self.is_slots = true,
            Setting::Values => self.is_values = true,
            Setting::Json => self.is_json = true,
            Setting::Null => self.is_null = true,
            Setting::Whole => self.is_whole = true,
            Setting::Check => self.is_checked = true,
            Setting::CheckOnly => self.is_check = true,
            Setting::Progress => self.has_progress = true,
            Setting::BreakLinks => self.allowed.breaks_links = true,
            Setting::Force => self.allowed.any_content = true,
            _ => {}
        }
    }

    // Sets an option to a value.
    fn set(&mut self, setting: Setting, value: &str) -> Result<(), CommandMisuse> {
        match self.set_to(setting, value) {
            Some(()) => Ok(()),
            None => match crate::host::texts::copy_of(self.alloc, value) {
                Ok(word) => Err(CommandMisuse::WrongValue(setting, word)),
                Err(_) => Err(CommandMisuse::Memory),
            },
        }
    }

    // Sets an option. None where it has no such value.
    fn set_to(&mut self, setting: Setting, value: &str) -> Option<()> {
        match setting {
            Setting::At => self.at = Some(parse_number(value.as_bytes())? as usize),
            Setting::Hash => self.hash = Some(Hash::named(value)?),
            Setting::Key => self.set_key(value)?,
            Setting::Value => self.kinds.value = Some(Kind::named(value)?),
            Setting::Duplicates => self.duplicates = Duplicates::named(value)?,
            Setting::Delimiter => self.delimiter = delimiter_named(value)?,
            Setting::Percent => self.percent = Some(parse_percent(value)?),
            Setting::Capacity => self.capacity = parse_number(value.as_bytes())? as usize,
            _ => return None,
        }
        Some(())
    }

    // Sets what keys are said to be, to the kind of this name.
    fn set_key(&mut self, name: &str) -> Option<()> {
        let kind = Kind::named(name)?;
        self.kinds.key = Some(kind);
        self.kinds.hash = Some(kind.default_hash(name));
        Some(())
    }

    /// What all the words ask for. After the file more files may come, or for `get` keys.
    pub(super) fn finish(self) -> Result<Request, Misuse> {
        let topic = self.topic;
        if self.is_help {
            return Ok(Request::Help(Some(topic)));
        }
        match self.request() {
            Ok(request) => Ok(request),
            Err(misuse) => Err(Misuse::InCommand(topic, misuse)),
        }
    }

    fn request(mut self) -> Result<Request, CommandMisuse> {
        if let Some(setting) = self.waiting {
            return Err(CommandMisuse::NoValue(setting));
        }
        if self.words.is_empty() {
            return Err(CommandMisuse::Missing("FILE"));
        }
        let file = self.words.remove(0);
        if !self.topic.takes_words() && !self.words.is_empty() {
            return Err(CommandMisuse::ExtraWord(self.words.remove(0)));
        }
        let is_null = self.is_null;
        let command = self.command(is_stream(file.as_str()))?;
        Ok(Request::Run { file, command, is_null })
    }

    // The command, of a file that is standard input or output, or is not.
    fn command(self, is_stream: bool) -> Result<Command, CommandMisuse> {
        match self.topic {
            Topic::Build => self.build(),
            Topic::Put | Topic::Delete | Topic::Rebuild if is_stream => {
                Err(CommandMisuse::Replaced)
            }
            Topic::Delete => self.delete(),
            Topic::Rebuild => Ok(Command::Rebuild(self.rebuilding())),
            Topic::Put => self.put(),
            Topic::Get => self.get(is_stream),
            Topic::Diff => self.diff(is_stream),
            Topic::Merge => self.merge(),
            Topic::Dump if self.is_slots && self.is_values => Err(CommandMisuse::Apart),
            _ if self.has_second_stream(is_stream) => Err(CommandMisuse::TwiceInput),
            _ => {
                let reading = self.reading();
                Ok(Command::Read { others: self.words, at: self.at, reading })
            }
        }
    }

    // Whether more than one file is standard input, of these words and the file before them.
    fn has_second_stream(&self, is_stream_first: bool) -> bool {
        let mut is_read = is_stream_first;
        for word in &self.words {
            if is_stream(word.as_str()) {
                if is_read {
                    return true;
                }
                is_read = true;
            }
        }
        false
    }

    // Whether `count` checks the files: so it does with each option that says how.
    fn is_checking(&self) -> bool {
        self.is_checked || self.is_whole || self.hash.is_some()
    }

    // What is read of each file, where all words name files.
    fn reading(&self) -> Reading {
        let (hash, kinds, bound) = (self.hash, self.kinds, bound_of(self.is_whole));
        match self.topic {
            // begin readings: generated from lists/commands.txt by make generate
            Topic::Info => Reading::Info { bound, is_json: self.is_json },
            Topic::Check => Reading::Check { hash, bound, is_json: self.is_json },
            Topic::Count => Reading::Count { hash, bound, is_checked: self.is_checking() },
            Topic::Dump => Reading::Dump {
                hash,
                kinds,
                bound,
                is_slots: self.is_slots,
                is_values: self.is_values,
                is_json: self.is_json,
            },
            Topic::Keys => Reading::Keys { hash, kinds, is_json: self.is_json },
            Topic::Find => Reading::Find { bound, is_json: self.is_json },
            _ => Reading::Order { hash, kinds, bound },
            // end readings
        }
    }
}

// Whether a word is an option: it begins with two hyphens, or with one and a letter.
fn is_option(word: &str) -> bool {
    match word.as_bytes() {
        [b'-', second, ..] => *second == b'-' || second.is_ascii_alphabetic(),
        _ => false,
    }
}

/// The name of an option, and the value that comes behind a `=` in its word, if there is one.
pub(super) fn name_and_value(word: &str) -> (&str, Option<&str>) {
    match word.split_once('=') {
        Some((name, value)) => (name, Some(value)),
        None => (word, None),
    }
}

// The bound of searches that a command has which is not to be made slow by its file: that of the
// library.
fn bound_of(is_whole: bool) -> Option<usize> {
    if is_whole {
        None
    } else {
        Some(DEFAULT_GROUPS)
    }
}

// The percentage of this text, a number from 1 to 100.
fn parse_percent(text: &str) -> Option<Percent> {
    Percent::new(u8::try_from(parse_number(text.as_bytes())?).ok()?)
}
