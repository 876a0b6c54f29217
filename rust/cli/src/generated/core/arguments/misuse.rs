// Generated from crates/odht_tool_core/src/arguments/misuse.rt by make generate.
//! Why the arguments cannot be parsed.
use super::asking::Asking;
use super::draft::name_and_value;
use crate::generated::core::generated::topics::{Setting, Topic, TOPICS};
use crate::generated::core::status::Status;
use crate::host::prelude::*;
use std::fmt;

/// Why the words cannot be parsed.
#[derive(Debug)]
pub enum Misuse {
    /// There is no word.
    NoCommand,
    /// A word is no command.
    UnknownCommand(String),
    /// A word comes after `help` and a command.
    InHelp(String),
    /// The words after a command cannot be parsed.
    InCommand(Topic, CommandMisuse),
}

/// Why the words after a command cannot be parsed.
#[derive(Debug)]
pub enum CommandMisuse {
    /// A word begins with a hyphen and is no option of the command.
    UnknownOption(String),
    /// An option's value is missing.
    NoValue(Setting),
    /// An option takes no value, and has one.
    NoValueTaken(Setting),
    /// An option has no such value.
    WrongValue(Setting, String),
    /// A word of this name, or an option, is missing.
    Missing(&'static str),
    /// There is a word too many.
    ExtraWord(String),
    /// A word of `put` has a byte that ends a key or a line.
    NotInLine(String),
    /// There is no value behind the last key.
    KeyAlone(String),
    /// The table and the keys are both to be read from standard input.
    BothInput,
    /// More than one file is to be read from standard input.
    TwiceInput,
    /// The file that is to be replaced would be a stream.
    Replaced,
    /// `--slots` and `--values` are given.
    Apart,
    /// No shape is ready with these keys, values and hash function.
    NoShape,
    /// An allocation failed.
    Memory,
}

impl CommandMisuse {
    // Writes what is wrong with the words of this command.
    fn write(&self, topic: Topic, f: &mut fmt::Formatter<'_>) -> fmt::Result {
        match self {
            CommandMisuse::UnknownOption(word) => {
                write!(f, "`odht {topic}` has no option {word:?}")?;
                write_nearest(topic, word.as_str(), f)
            }
            CommandMisuse::NoValue(option) => {
                write!(f, "a value is wanted behind {}", option.name())?;
                write_wanted(*option, f)
            }
            CommandMisuse::NoValueTaken(option) => write!(f, "{} takes no value", option.name()),
            CommandMisuse::WrongValue(option, word) => {
                write!(f, "{} cannot be {word:?}", option.name())?;
                write_wanted(*option, f)
            }
            CommandMisuse::Missing(what) => write!(f, "{what} is missing"),
            CommandMisuse::ExtraWord(word) => write!(f, "{word:?} is one word too many"),
            CommandMisuse::NotInLine(word) => {
                write!(f, "{word:?} has a tab or a line end, so it is no key and no value")
            }
            CommandMisuse::KeyAlone(word) => {
                write!(f, "a value is wanted behind the key {word:?}")
            }
            CommandMisuse::BothInput => {
                write!(f, "FILE and the keys cannot both be standard input")
            }
            CommandMisuse::TwiceInput => write!(f, "only one FILE can be standard input"),
            CommandMisuse::Replaced => write!(f, "FILE is replaced, and so cannot be -"),
            CommandMisuse::Apart => write!(f, "--slots and --values exclude each other"),
            CommandMisuse::NoShape => write!(f, "these keys are too short for this hash function"),
            CommandMisuse::Memory => write!(f, "out of memory"),
        }
    }
}

// Writes what the value of an option is to be.
fn write_wanted(option: Setting, f: &mut fmt::Formatter<'_>) -> fmt::Result {
    match option.wanted() {
        Some(wanted) => write!(f, ": {wanted}"),
        None => Ok(()),
    }
}

impl fmt::Display for Misuse {
    fn fmt(&self, f: &mut fmt::Formatter<'_>) -> fmt::Result {
        match self {
            Misuse::NoCommand => write!(f, "a command is missing"),
            Misuse::UnknownCommand(word) => {
                write!(f, "no command is named {word:?}")?;
                match nearest_name(word.as_str()) {
                    Some(name) => write!(f, " (did you mean {name}?); try `odht --help`"),
                    None => write_commands(f),
                }
            }
            Misuse::InHelp(word) => {
                write!(f, "{word:?} is one word too many; try `odht --help`")
            }
            Misuse::InCommand(_, CommandMisuse::Memory) => write!(f, "out of memory"),
            Misuse::InCommand(topic, misuse) => {
                misuse.write(*topic, f)?;
                write!(f, "; try `odht {topic} --help`")
            }
        }
    }
}

// What was meant by a word that is no command, where one slip makes a command of it, or what asks
// for a text.
fn nearest_name(word: &str) -> Option<&'static str> {
    match Topic::nearest(word) {
        Some(topic) => Some(topic.name()),
        None => Some(Asking::nearest(word)?.meant()),
    }
}

// Writes the names of all commands.
fn write_commands(f: &mut fmt::Formatter<'_>) -> fmt::Result {
    write!(f, "; there are help")?;
    for topic in TOPICS {
        write!(f, ", {topic}")?;
    }
    Ok(())
}

// Writes what was meant by a word that is no option, where one slip makes an option of it, or else
// how a word that begins with a hyphen is passed.
fn write_nearest(topic: Topic, word: &str, f: &mut fmt::Formatter<'_>) -> fmt::Result {
    let (name, _) = name_and_value(word);
    match Setting::nearest(topic, name) {
        Some(option) => write!(f, " (did you mean {}?)", option.name()),
        None => write!(f, "; words that begin with a hyphen come after --"),
    }
}

impl std::error::Error for Misuse {}

impl Misuse {
    /// How the program ends. If only memory is short, the words may be right, and the command
    /// failed.
    pub fn status(&self) -> Status {
        match self {
            Misuse::InCommand(topic, CommandMisuse::Memory) => Status::of_failure(*topic),
            _ => Status::Misused,
        }
    }

    /// Whether there is no word.
    pub fn is_empty(&self) -> bool {
        match self {
            Misuse::NoCommand => true,
            _ => false,
        }
    }
}
