// Generated from crates/odht_tool_core/src/dynamic_bytes.rt by make generate.
//! Keys and values of a length that is known only at run time, as text: by the type that the form
//! says they are of.

use crate::generated::core::forms::Form;
use crate::generated::core::hexadecimal::{no_plain_bytes, read_digits};
use crate::generated::core::misread::Wanted;
use crate::generated::core::plain::read_plain;
use crate::generated::core::shapes::Part;
use crate::generated::core::text::{write_bytes, Text};
use crate::generated::core::typed::{plain_bytes, write_stored};
use crate::generated::core::written::Written;
use crate::generated::raw::raw_table::ShortBytes;
use crate::host::prelude::*;
use std::io::{self, Write};

/// The form says their type. Bytes of another length than it has are written in hexadecimal
/// digits.
impl Text for ShortBytes {
    fn wanted(form: Form) -> Wanted {
        let part = form.part();
        if part.size() == 0 {
            Wanted::Nothing
        } else {
            wanted_of(part, form.part_form())
        }
    }

    fn parse(word: &[u8], form: Form) -> Option<ShortBytes> {
        let mut bytes = [0; 255];
        let bytes = &mut bytes[..form.part().size() as usize];
        if read_bytes(word, form, bytes) {
            Some(ShortBytes::of(bytes))
        } else {
            None
        }
    }
}

impl Written for ShortBytes {
    fn plain_bytes(&self, form: Form) -> Option<&[u8]> {
        plain_bytes_in(self.as_slice(), form)
    }

    fn write<W: Write>(&self, form: Form, output: &mut W) -> io::Result<()> {
        write_bytes_in(self.as_slice(), form, output)
    }
}

/// Bytes of a length that is known only at run time, where they lie.
///
/// In a contract it is the list of these bytes.
pub struct DynBytes<'a> {
    bytes: &'a [u8],
}

impl<'a> DynBytes<'a> {
    /// These bytes.
    #[inline(always)]
    pub fn of(bytes: &'a [u8]) -> DynBytes<'a> {
        DynBytes { bytes }
    }
}

impl<'a> Written for DynBytes<'a> {
    fn plain_bytes(&self, form: Form) -> Option<&[u8]> {
        plain_bytes_in(self.bytes, form)
    }

    fn write<W: Write>(&self, form: Form, output: &mut W) -> io::Result<()> {
        write_bytes_in(self.bytes, form, output)
    }
}

// The text of the bytes, where it may have any bytes.
fn plain_bytes_in(bytes: &[u8], form: Form) -> Option<&[u8]> {
    let part = form.part();
    if bytes.len() == part.size() as usize {
        plain_bytes(part, form.part_form(), bytes)
    } else {
        no_plain_bytes(bytes)
    }
}

// Writes the text of the bytes.
fn write_bytes_in<W: Write>(bytes: &[u8], form: Form, output: &mut W) -> io::Result<()> {
    let part = form.part();
    if bytes.len() == part.size() as usize {
        write_stored(part, form.part_form(), bytes, output)
    } else {
        write_bytes(bytes, output)
    }
}

// What the texts of this type are in this form.
fn wanted_of(part: Part, form: Form) -> Wanted {
    match part {
        Part::Nothing => Wanted::Nothing,
        Part::U32 => <u32 as Text>::wanted(form),
        Part::U64 => <u64 as Text>::wanted(form),
        Part::Bytes(len) => match form {
            Form::Plain => Wanted::Text(len as usize),
            _ => Wanted::Bytes(len as usize),
        },
    }
}

/// Whether the word is a text in this form. The bytes, as many as the type of the form has, then
/// become those that it stands for.
pub(crate) fn read_bytes(word: &[u8], form: Form, bytes: &mut [u8]) -> bool {
    read_stored(word, form.part(), form.part_form(), bytes)
}

// The same of a type, and the form of what is of it.
fn read_stored(word: &[u8], part: Part, form: Form, bytes: &mut [u8]) -> bool {
    match part {
        Part::Nothing => word.is_empty(),
        Part::U32 => match <u32 as Text>::parse(word, form) {
            Some(number) => {
                put_u32(number, bytes);
                true
            }
            None => false,
        },
        Part::U64 => match <u64 as Text>::parse(word, form) {
            Some(number) => {
                put_u64(number, bytes);
                true
            }
            None => false,
        },
        Part::Bytes(_) => read_sized(word, form, bytes),
    }
}

// Whether the word is the text of that many bytes in this form. They then become these.
#[inline(always)]
fn read_sized(word: &[u8], form: Form, bytes: &mut [u8]) -> bool {
    match form {
        Form::Plain => {
            bytes.fill(0);
            read_plain(word, bytes)
        }
        _ => read_digits(word, bytes),
    }
}

// Puts the stored bytes of a number, the lowest first.
fn put_u32(number: u32, bytes: &mut [u8]) {
    bytes.copy_from_slice(&number.to_le_bytes());
}

// The same of a number of 64 bits.
fn put_u64(number: u64, bytes: &mut [u8]) {
    bytes.copy_from_slice(&number.to_le_bytes());
}
