//! Why a call failed.

use std::fmt;

/// The status of success.
pub(crate) const OK: u32 = 0;
/// The key is absent. Not an error.
pub(crate) const ABSENT: u32 = 32;
/// The key was present. Not an error.
pub(crate) const REPLACED: u32 = 33;
/// No list of inserts makes the table. Not an error.
pub(crate) const UNMADE: u32 = 37;

macro_rules! errors {
    ($($(#[$comment:meta])* $name:ident = $number:literal $text:literal,)*) => {
        /// Why a call failed: each status of the library that is an error.
        ///
        /// The errors 1 to 16 are about the bytes of a table. Opening looks for 1 to 9 in this order, and returns the
        /// first error. docs/FORMAT.md of the repository describes the order of the whole check.
        #[non_exhaustive]
        #[derive(Clone, Copy, Debug, PartialEq, Eq, Hash)]
        pub enum Error {
            $($(#[$comment])* $name,)*
            /// A number without a name in this version of the crate. No call of this version returns it.
            Unknown(u32),
        }

        impl Error {
            /// Returns the error for a status of include/odht.h, or [`Error::Unknown`] if no error has this number.
            pub fn from_number(number: u32) -> Error {
                match number {
                    $($number => Error::$name,)*
                    other => Error::Unknown(other),
                }
            }

            /// Returns the number of the error, a status of include/odht.h.
            pub fn number(self) -> u32 {
                match self {
                    $(Error::$name => $number,)*
                    Error::Unknown(number) => number,
                }
            }

            /// Returns a short text, the same as `odht_status_name`.
            pub fn name(self) -> &'static str {
                match self {
                    $(Error::$name => $text,)*
                    Error::Unknown(_) => "unknown status",
                }
            }
        }
    };
}

errors! {
    // begin errors: generated from lists/errors.txt by make generate
    /// There are fewer than 32 bytes.
    TooShort = 1 "too short",
    /// The first four bytes are not `ODHT`.
    WrongTag = 2 "wrong tag",
    /// The format version is not 2.
    WrongVersion = 3 "wrong version",
    /// The header states other lengths of control bytes, keys, values or header: the table has another shape.
    WrongSize = 4 "wrong size",
    /// The slot count is not a power of two.
    SlotCountNotPowerOfTwo = 5 "slot count not a power of two",
    /// There are fewer than 16 slots.
    SlotCountTooSmall = 6 "slot count too small",
    /// The number of bytes is not the one that the slot count needs.
    WrongLength = 7 "wrong length",
    /// The entry of a free slot is not zero.
    NonZeroEmpty = 8 "non-zero empty slot",
    /// A control byte is not its key's tag.
    ControlMismatch = 9 "control mismatch",
    /// The load factor is below 1 percent.
    LoadFactorTooSmall = 10 "load factor too small",
    /// Bytes 30 and 31 are not zero.
    NonZeroPadding = 11 "non-zero padding",
    /// The control byte of a free slot is not 255.
    BadFreeControl = 12 "bad free control",
    /// The last 16 bytes do not repeat the first control bytes.
    MirrorMismatch = 13 "mirror mismatch",
    /// The header's item count is not the number of occupied slots.
    WrongItemCount = 14 "wrong item count",
    /// There are more items than the load factor allows.
    TooManyItems = 15 "too many items",
    /// A key comes after a free slot of its probe order, or is stored a second time.
    Unreachable = 16 "unreachable",
    /// The bytes to initialize do not have the length that the table needs.
    InitLength = 17 "wrong length to initialize",
    /// The key is new, and the table is at its maximum.
    Full = 18 "full",
    /// An allocation failed, or a growing table cannot be larger.
    Memory = 19 "no memory",
    /// There are too many items for any table.
    Capacity = 20 "capacity",
    /// A search may read more groups of control bytes than the bound.
    SearchTooLong = 21 "search too long",
    /// The load factor is 0 percent, or more than 100.
    BadPercent = 34 "bad percent",
    /// Slices have different lengths, or a slice does not have one element for each item.
    BadLengths = 35 "bad lengths",
    /// An output buffer is too short for the result.
    TooSmall = 36 "too small",
    /// No hash function has this number, or the keys are too short for it.
    BadLayout = 38 "bad layout",
    // end errors
}

impl Error {
    /// Returns `answer` if the status is that of success, and otherwise the error with its number.
    pub(crate) fn unless_ok<T>(status: u32, answer: T) -> Result<T, Error> {
        match status {
            OK => Ok(answer),
            refused => Err(Error::from_number(refused)),
        }
    }
}

impl fmt::Display for Error {
    fn fmt(&self, formatter: &mut fmt::Formatter<'_>) -> fmt::Result {
        match self {
            Error::Unknown(number) => write!(formatter, "unknown status {number}"),
            known => formatter.write_str(known.name()),
        }
    }
}

impl std::error::Error for Error {}

/// An error of bytes, with its slot.
#[derive(Clone, Copy, Debug, PartialEq, Eq, Hash)]
pub struct ErrorAt {
    /// The first error.
    pub error: Error,
    /// The slot of the error, counted from 0: the slot of the entry, the control byte or the unreachable key. For
    /// [`Error::MirrorMismatch`] it is the slot whose control byte is not repeated. For [`Error::SearchTooLong`] it is
    /// the slot where such searches begin. `None` if the error is not in a slot.
    pub slot: Option<usize>,
}

impl ErrorAt {
    /// Returns the error of a status, with the slot that the call wrote.
    pub(crate) fn unless_ok(status: u32, slot: usize) -> Result<(), ErrorAt> {
        let slot = if slot == usize::MAX { None } else { Some(slot) };
        Error::unless_ok(status, ()).map_err(|error| ErrorAt { error, slot })
    }
}

impl fmt::Display for ErrorAt {
    fn fmt(&self, formatter: &mut fmt::Formatter<'_>) -> fmt::Result {
        match self.slot {
            Some(slot) => write!(formatter, "{} at slot {slot}", self.error),
            None => self.error.fmt(formatter),
        }
    }
}

impl std::error::Error for ErrorAt {
    fn source(&self) -> Option<&(dyn std::error::Error + 'static)> {
        Some(&self.error)
    }
}
