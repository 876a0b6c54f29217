// Generated from crates/odht_tool_core/src/arguments.rt by make generate.
//! The arguments that the program is called with.

use crate::generated::base::load::Percent;
use crate::generated::core::any::AnyShape;
use crate::generated::core::forms::{GivenForms, Kinds};
use crate::generated::core::progress::Watch;
use crate::generated::core::shapes::Hash;
use crate::generated::core::status::Status;
use crate::generated::core::targets::Allowed;
use crate::host::prelude::*;
use crate::shim::Global;

mod asking;
mod delimiters;
mod draft;
mod duplicates;
mod misuse;

pub use crate::generated::core::generated::topics::{Setting, Topic};
use draft::Draft;
pub use duplicates::Duplicates;
pub use misuse::{CommandMisuse, Misuse};

/// The options of `build`.
#[derive(Clone, Copy)]
pub struct BuildOptions {
    pub shape: AnyShape,
    pub forms: GivenForms,
    /// Which line of a key counts.
    pub duplicates: Duplicates,
    /// The byte between key and value.
    pub delimiter: u8,
    /// Whether lines are only checked, and no file is made.
    pub is_check: bool,
    /// For how many items room is made at first.
    pub capacity: usize,
    pub percent: Percent,
    pub allowed: Allowed,
    /// Whether lines of progress are requested.
    pub watch: Watch,
}

/// The options of `put`.
#[derive(Clone, Copy)]
pub struct PutOptions {
    pub hash: Option<Hash>,
    pub kinds: Kinds,
    /// Which pair of a key counts: of the table and the lines, in this order.
    pub duplicates: Duplicates,
    /// The byte between key and value.
    pub delimiter: u8,
    /// The bound of searches, in groups, by which the file is checked; none with `--whole`.
    pub bound: Option<usize>,
    pub breaks_links: bool,
    pub watch: Watch,
}

/// The options of `rebuild`.
#[derive(Clone, Copy)]
pub struct RebuildOptions {
    /// The load factor of the new table; without one that of the file.
    pub percent: Option<Percent>,
    /// The hash function of the new table; without one that of the file.
    pub hash: Option<Hash>,
    /// The bound of searches, in groups, by which the file is checked; none with `--whole`.
    pub bound: Option<usize>,
    pub breaks_links: bool,
    pub has_progress: bool,
}

/// The options of `diff`, and the file that it compares with its first one.
pub struct DiffOptions {
    pub other: String,
    pub hash: Option<Hash>,
    /// What is said of the keys and values of the first file.
    pub kinds: Kinds,
    /// The bound of searches, in groups, by which both are checked; none with `--whole`.
    pub bound: Option<usize>,
}

/// The options of `delete`.
pub struct DeleteOptions {
    pub keys: Keys,
    pub hash: Option<Hash>,
    pub kinds: Kinds,
    /// The bound of searches, in groups, by which the file is checked; none with `--whole`.
    pub bound: Option<usize>,
    pub breaks_links: bool,
    pub has_progress: bool,
}

/// The options of `merge`, and the files whose pairs it takes.
pub struct MergeOptions {
    pub first: String,
    /// Those after the first.
    pub others: Vec<String>,
    /// Which file's pair of a key counts.
    pub duplicates: Duplicates,
    /// The hash function of all files, where it is named.
    pub hash: Option<Hash>,
    /// What is said of the keys and values of the first file.
    pub kinds: Kinds,
    /// The load factor of the new table; without one that of the first file.
    pub percent: Option<Percent>,
    /// The bound of searches, in groups, by which the files are checked; none with `--whole`.
    pub bound: Option<usize>,
    pub allowed: Allowed,
    pub has_progress: bool,
}

/// Where the keys are that are looked up, or deleted.
pub enum Keys {
    /// These words.
    Words(Vec<String>),
    /// The lines of standard input.
    Lines,
}

impl Keys {
    // The word `-` alone stands for the lines of standard input.
    fn of_words(words: Vec<String>) -> Keys {
        match words.as_slice() {
            [word] if is_stream(word.as_str()) => Keys::Lines,
            _ => Keys::Words(words),
        }
    }

    fn are_lines(&self) -> bool {
        match self {
            Keys::Lines => true,
            Keys::Words(_) => false,
        }
    }
}

/// A command, with all that it needs to know beside its file.
pub enum Command {
    /// One that reads the file alone, from the given byte on where there is one, and then others
    /// so.
    Read {
        others: Vec<String>,
        at: Option<usize>,
        reading: Reading,
    },
    Build(BuildOptions),
    /// The words are keys and values by turns; without words, the pairs are lines.
    Put {
        options: PutOptions,
        words: Vec<String>,
    },
    Delete(DeleteOptions),
    Rebuild(RebuildOptions),
    Diff(DiffOptions),
    Merge(MergeOptions),
}

impl Command {
    // Whether it reads lines of standard input.
    fn reads_lines(&self) -> bool {
        match self {
            Command::Build(_) | Command::Put { .. } => true,
            Command::Delete(options) => options.keys.are_lines(),
            Command::Read { reading: Reading::Get { keys, .. }, .. } => keys.are_lines(),
            _ => false,
        }
    }

    // Whether it writes lines to standard output, and no bytes of a table.
    fn writes_lines(&self) -> bool {
        match self {
            Command::Read { .. } => true,
            _ => false,
        }
    }

    /// How the run ends if the command fails.
    pub fn failed(&self) -> Status {
        match self {
            Command::Read { reading, .. } => reading.failed(),
            Command::Delete(_) => Status::of_failure(Topic::Delete),
            Command::Diff(_) => Status::of_failure(Topic::Diff),
            _ => Status::NotDone,
        }
    }
}

/// A command that only reads its file. A bound is one of searches, in groups; none with
/// `--whole`.
pub enum Reading {
    // begin readings: generated from lists/commands.txt by make generate
    Info {
        bound: Option<usize>,
        is_json: bool,
    },
    Check {
        hash: Option<Hash>,
        bound: Option<usize>,
        is_json: bool,
    },
    Count {
        hash: Option<Hash>,
        bound: Option<usize>,
        is_checked: bool,
    },
    Get {
        hash: Option<Hash>,
        kinds: Kinds,
        bound: Option<usize>,
        keys: Keys,
        is_values: bool,
        is_json: bool,
    },
    Dump {
        hash: Option<Hash>,
        kinds: Kinds,
        bound: Option<usize>,
        is_slots: bool,
        is_values: bool,
        is_json: bool,
    },
    Keys {
        hash: Option<Hash>,
        kinds: Kinds,
        is_json: bool,
    },
    Find {
        bound: Option<usize>,
        is_json: bool,
    },
    Order {
        hash: Option<Hash>,
        kinds: Kinds,
        bound: Option<usize>,
    },
    // end readings
}

impl Reading {
    /// How the run ends if the command fails.
    pub fn failed(&self) -> Status {
        match self {
            Reading::Get { .. } => Status::of_failure(Topic::Get),
            _ => Status::NotDone,
        }
    }

    /// Whether it looks for tables at every byte of the file.
    pub fn is_search(&self) -> bool {
        match self {
            Reading::Find { .. } => true,
            _ => false,
        }
    }
}

/// What the words ask for.
pub enum Request {
    /// The help text of a command, or of all.
    Help(Option<Topic>),
    /// The version of the program.
    Version,
    /// A command to run on a file.
    Run {
        file: String,
        command: Command,
        /// Whether lines end in NUL.
        is_null: bool,
    },
}

impl Request {
    /// Whether lines that are read end in NUL.
    pub fn reads_null(&self) -> bool {
        match self {
            Request::Run { command, is_null, .. } => *is_null && command.reads_lines(),
            _ => false,
        }
    }

    /// Whether lines that are written end in NUL.
    pub fn writes_null(&self) -> bool {
        match self {
            Request::Run { command, is_null, .. } => *is_null && command.writes_lines(),
            _ => false,
        }
    }
}

/// Whether the name of a file stands for standard input, or of one that is made for standard
/// output.
pub fn is_stream(file: &str) -> bool {
    file == "-"
}

/// Parses the words after the program's name.
pub fn parse(alloc: Global, words: Vec<String>) -> Result<Request, Misuse> {
    let mut words = words.into_iter();
    let Some(first) = words.next() else {
        return Err(Misuse::NoCommand);
    };
    match first.as_str() {
        "-h" | "--help" => return Ok(Request::Help(None)),
        "-V" | "--version" => return Ok(Request::Version),
        "help" => return parse_help(words.next(), words.next()),
        _ => {}
    }
    let Some(topic) = Topic::named(first.as_str()) else {
        return Err(Misuse::UnknownCommand(first));
    };
    let mut draft = Draft::new(alloc, topic);
    for word in words {
        draft.read(word).map_err(|misuse| Misuse::InCommand(topic, misuse))?;
    }
    draft.finish()
}

// `help`, and the two words after it, if there are that many.
fn parse_help(command: Option<String>, more: Option<String>) -> Result<Request, Misuse> {
    let Some(command) = command else {
        return Ok(Request::Help(None));
    };
    let topic = Topic::named(command.as_str());
    if topic.is_none() && !is_help(command.as_str()) {
        return Err(Misuse::UnknownCommand(command));
    }
    match more {
        None => Ok(Request::Help(topic)),
        Some(word) => Err(Misuse::InHelp(word)),
    }
}

// Whether a word in the place of a command asks for the help text of all.
fn is_help(word: &str) -> bool {
    match word {
        "help" | "-h" | "--help" => true,
        _ => false,
    }
}
