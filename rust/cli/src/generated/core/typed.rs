// Generated from crates/odht_tool_core/src/typed.rt by make generate.
//! The texts of keys and values, of their stored bytes and their types.

use crate::host::prelude::*;

pub mod stored;

use crate::generated::base::bytes::ByteArray;
use crate::generated::core::any::AnyShape;
use crate::generated::core::forms::{Form, GivenForms};
use crate::generated::core::hexadecimal::no_plain_bytes;
use crate::generated::core::plain::{plain_of, write_plain};
use crate::generated::core::shapes::Part;
use crate::generated::core::text::write_bytes;
use crate::generated::core::written::Written;
use std::io::{self, Write};
use stored::Typed;

/// One side of a pair.
#[derive(Clone, Copy)]
pub enum Side {
    /// Its key.
    Key,
    /// Its value.
    Value,
}

impl Side {
    /// The bytes of this side of a pair.
    #[inline(always)]
    pub fn of<'a>(self, key: &'a [u8], value: &'a [u8]) -> &'a [u8] {
        match self {
            Side::Key => key,
            Side::Value => value,
        }
    }

    /// Its name in objects of JSON.
    pub(crate) fn name(self) -> &'static str {
        match self {
            Side::Key => "key",
            Side::Value => "value",
        }
    }
}

/// In which texts the keys and the values of a table are written.
#[derive(Clone, Copy)]
pub struct Texts {
    /// The type of keys.
    pub key: Part,
    /// The type of values.
    pub value: Part,
    /// Their forms.
    pub forms: GivenForms,
}

impl Texts {
    /// Those of a shape, in these forms.
    pub fn of(shape: AnyShape, forms: GivenForms) -> Texts {
        Texts { key: shape.key(), value: shape.value(), forms }
    }

    /// The type and the form of this side of pairs.
    pub fn of_side(self, side: Side) -> Typed {
        let (part, form) = match side {
            Side::Key => (self.key, self.forms.key),
            Side::Value => (self.value, self.forms.value),
        };
        Typed { part, form }
    }

    /// Writes the text of the key that is stored as these bytes.
    pub fn write_key<W: Write>(self, key: &[u8], output: &mut W) -> io::Result<()> {
        write_stored(self.key, self.forms.key, key, output)
    }

    /// Writes the text of the value that is stored as these bytes.
    pub fn write_value<W: Write>(self, value: &[u8], output: &mut W) -> io::Result<()> {
        write_stored(self.value, self.forms.value, value, output)
    }

    /// Writes a line of the key and the value that are stored as these bytes.
    #[inline(always)]
    pub fn write_pair<W: Write>(self, key: &[u8], value: &[u8], output: &mut W) -> io::Result<()> {
        self.write_key(key, output)?;
        output.write_all(b"\t")?;
        self.write_value(value, output)?;
        output.write_all(b"\n")
    }
}

/// Writes the text, in this form, of the key or the value of this type that is stored as these
/// bytes.
#[inline(always)]
pub(crate) fn write_stored<W: Write>(
    part: Part,
    form: Form,
    bytes: &[u8],
    output: &mut W,
) -> io::Result<()> {
    match part {
        Part::Nothing => output.write_all(b""),
        Part::U32 => u32::from_le_bytes(<[u8; 4]>::from_slice(bytes)).write(form, output),
        Part::U64 => u64::from_le_bytes(<[u8; 8]>::from_slice(bytes)).write(form, output),
        Part::Bytes(_) => write_stored_bytes(form, bytes, output),
    }
}

fn write_stored_bytes<W: Write>(form: Form, bytes: &[u8], output: &mut W) -> io::Result<()> {
    match form {
        Form::Plain => write_plain(bytes, output),
        _ => write_bytes(bytes, output),
    }
}

/// The text, where it may have any bytes. None where each is a character that stands for itself in
/// strings of JSON.
pub(crate) fn plain_bytes(part: Part, form: Form, bytes: &[u8]) -> Option<&[u8]> {
    match part {
        Part::Bytes(_) => plain_bytes_in(form, bytes),
        _ => None,
    }
}

fn plain_bytes_in(form: Form, bytes: &[u8]) -> Option<&[u8]> {
    match form {
        Form::Plain => Some(plain_of(bytes)),
        _ => no_plain_bytes(bytes),
    }
}
