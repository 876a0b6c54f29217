// Generated from crates/odht_tool_core/src/forms.rt by make generate.
//! The forms of keys and values: other texts than those that their shape has for them.

use crate::generated::core::any::OtherShape;
use crate::generated::core::shapes::{Hash, Part};
use crate::host::prelude::*;

/// How a key or a value is written and read. It has two bytes, so that it is passed in registers.
#[derive(Clone, Copy)]
pub enum Form {
    /// As its shape has it: a number in decimal digits, or bytes in hexadecimal digits.
    Own,
    /// A number with a sign, of which the stored bytes are the two's complement.
    Signed,
    /// A number whose stored bytes begin with the highest one.
    BigEndian,
    /// Bytes that are a plain text, with zeros behind it.
    Plain,
    /// Stored bytes that do not say their type: a number of this type.
    OfNumber(NumberType),
    /// Stored bytes that do not say their type: that many bytes, in hexadecimal digits.
    OfBytes(u8),
    /// Stored bytes that do not say their type: that many bytes, a plain text with zeros behind it.
    OfText(u8),
}

/// A type of numbers, and how they are written and read.
#[derive(Clone, Copy)]
pub enum NumberType {
    /// Of 32 bits.
    U32,
    /// Of 32 bits, with a sign.
    I32,
    /// Of 32 bits, whose stored bytes begin with the highest one.
    U32BigEndian,
    /// Of 64 bits.
    U64,
    /// Of 64 bits, with a sign.
    I64,
    /// Of 64 bits, whose stored bytes begin with the highest one.
    U64BigEndian,
}

impl NumberType {
    // The type of its stored bytes.
    fn part(self) -> Part {
        match self {
            NumberType::U32 | NumberType::I32 | NumberType::U32BigEndian => Part::U32,
            NumberType::U64 | NumberType::I64 | NumberType::U64BigEndian => Part::U64,
        }
    }

    // The form of what is of that type.
    fn form(self) -> Form {
        match self {
            NumberType::U32 | NumberType::U64 => Form::Own,
            NumberType::I32 | NumberType::I64 => Form::Signed,
            NumberType::U32BigEndian | NumberType::U64BigEndian => Form::BigEndian,
        }
    }
}

impl Form {
    /// The form of stored bytes that are of this type, and are written as this form has it.
    pub fn of(self, part: Part) -> Form {
        match part {
            Part::Nothing => Form::Own,
            Part::U32 => Form::OfNumber(self.number_type_of_32()),
            Part::U64 => Form::OfNumber(self.number_type_of_64()),
            Part::Bytes(len) => self.of_bytes(len),
        }
    }

    // The numbers of 32 bits that are written as this form has it.
    fn number_type_of_32(self) -> NumberType {
        match self {
            Form::Signed => NumberType::I32,
            Form::BigEndian => NumberType::U32BigEndian,
            _ => NumberType::U32,
        }
    }

    // The numbers of 64 bits that are written as this form has it.
    fn number_type_of_64(self) -> NumberType {
        match self {
            Form::Signed => NumberType::I64,
            Form::BigEndian => NumberType::U64BigEndian,
            _ => NumberType::U64,
        }
    }

    // The form of that many stored bytes that are written as this form has it.
    fn of_bytes(self, len: u8) -> Form {
        match self {
            Form::Plain => Form::OfText(len),
            _ => Form::OfBytes(len),
        }
    }

    /// The type that this form says stored bytes are of; `Part::Nothing` where it says none, as of
    /// what has no bytes.
    pub(crate) fn part(self) -> Part {
        match self {
            Form::OfNumber(number) => number.part(),
            Form::OfBytes(len) | Form::OfText(len) => Part::Bytes(len),
            _ => Part::Nothing,
        }
    }

    /// The form of what is of that type.
    pub(crate) fn part_form(self) -> Form {
        match self {
            Form::OfNumber(number) => number.form(),
            Form::OfText(_) => Form::Plain,
            _ => Form::Own,
        }
    }
}

/// The forms of keys and of values.
pub trait Forms: Copy {
    /// That of keys.
    fn key(self) -> Form;

    /// That of values.
    fn value(self) -> Form;

    /// The byte that stands between key and value on a line.
    fn delimiter(self) -> u8;
}

/// The forms of a shape's own. What is generic in forms is compiled for these again, and asks
/// nothing when it runs.
#[derive(Clone, Copy)]
pub struct OwnForms;

impl Forms for OwnForms {
    #[inline(always)]
    fn key(self) -> Form {
        Form::Own
    }

    #[inline(always)]
    fn value(self) -> Form {
        Form::Own
    }

    #[inline(always)]
    fn delimiter(self) -> u8 {
        b'\t'
    }
}

/// Any forms.
#[derive(Clone, Copy)]
pub struct GivenForms {
    /// That of keys.
    pub key: Form,
    /// That of values.
    pub value: Form,
}

impl Forms for GivenForms {
    fn key(self) -> Form {
        self.key
    }

    fn value(self) -> Form {
        self.value
    }

    #[inline(always)]
    fn delimiter(self) -> u8 {
        b'\t'
    }
}

/// Any forms, with this byte between key and value.
#[derive(Clone, Copy)]
pub struct LineForms {
    pub forms: GivenForms,
    pub delimiter: u8,
}

impl Forms for LineForms {
    fn key(self) -> Form {
        self.forms.key
    }

    fn value(self) -> Form {
        self.forms.value
    }

    fn delimiter(self) -> u8 {
        self.delimiter
    }
}

impl GivenForms {
    /// The forms of stored bytes of these types that are written in these forms.
    pub fn of(self, shape: OtherShape) -> GivenForms {
        GivenForms { key: self.key.of(shape.key), value: self.value.of(shape.value) }
    }

    /// Whether both are the shape's own.
    pub fn are_own(self) -> bool {
        match (self.key, self.value) {
            (Form::Own, Form::Own) => true,
            _ => false,
        }
    }
}

/// What keys or values are said to be: their type, and their form.
#[derive(Clone, Copy)]
pub struct Kind {
    pub part: Part,
    pub form: Form,
}

impl Kind {
    /// The hash function of new tables of keys of this kind, which is of this name, where none is
    /// named: `fx` for `u32`, `u64`, `i32` and `i64`, `unhash` for `hex8` to `hex32`, and `xxh64`
    /// for all others.
    pub(crate) fn default_hash(self, name: &str) -> Hash {
        match self.form {
            Form::Signed => Hash::Fx,
            Form::Own if name.strip_prefix("bytes:").is_none() => self.part.default_hash(),
            _ => Hash::Xxh64,
        }
    }

    /// The kind of this name: that of a type (`Part::named`), `i32` or `i64`, `u32be` or `u64be`,
    /// or `text:` and a number of bytes from 1 to 255.
    pub(crate) fn named(name: &str) -> Option<Kind> {
        let (part, form) = match name {
            "i32" => (Part::U32, Form::Signed),
            "i64" => (Part::U64, Form::Signed),
            "u32be" => (Part::U32, Form::BigEndian),
            "u64be" => (Part::U64, Form::BigEndian),
            _ => match name.strip_prefix("text:") {
                Some(size) => (Part::of_size(size)?, Form::Plain),
                None => (Part::named(name)?, Form::Own),
            },
        };
        Some(Kind { part, form })
    }
}

/// What is said of keys and of values.
#[derive(Clone, Copy)]
pub struct Kinds {
    pub key: Option<Kind>,
    pub value: Option<Kind>,
    /// The hash function of new tables of such keys, where something is said of them.
    pub hash: Option<Hash>,
}

/// The form of keys or values of this type of which this is said, if anything is. None where that
/// is of another type.
pub(crate) fn form_for(kind: Option<Kind>, part: Part) -> Option<Form> {
    match kind {
        None => Some(Form::Own),
        Some(kind) if part.is(kind.part) => Some(kind.form),
        Some(_) => None,
    }
}
