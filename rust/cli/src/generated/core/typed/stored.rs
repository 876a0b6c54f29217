// Generated from crates/odht_tool_core/src/typed/stored.rt by make generate.
//! The ways to write stored keys or values. What is generic in them is compiled for numbers by
//! itself, and asks for their type once for a table, and not for each.

use super::write_stored;
use crate::generated::base::bytes::ByteArray;
use crate::generated::core::digits::write_number;
use crate::generated::core::forms::Form;
use crate::generated::core::shapes::Part;
use crate::host::prelude::*;
use std::io::{self, Write};

/// How keys or values are written, of their stored bytes.
pub trait TextWriter: Copy {
    /// Writes the text of what is stored as these bytes.
    fn write_text<W: Write>(self, bytes: &[u8], output: &mut W) -> io::Result<()>;
}

/// Numbers of four bytes, in decimal digits.
#[derive(Clone, Copy)]
pub struct Digits32;

impl TextWriter for Digits32 {
    #[inline(always)]
    fn write_text<W: Write>(self, bytes: &[u8], output: &mut W) -> io::Result<()> {
        let number = u32::from_le_bytes(<[u8; 4]>::from_slice(bytes));
        write_number(u64::from(number), output)
    }
}

/// Numbers of eight bytes, in decimal digits.
#[derive(Clone, Copy)]
pub struct Digits64;

impl TextWriter for Digits64 {
    #[inline(always)]
    fn write_text<W: Write>(self, bytes: &[u8], output: &mut W) -> io::Result<()> {
        write_number(u64::from_le_bytes(<[u8; 8]>::from_slice(bytes)), output)
    }
}

/// Keys or values of any type, in any form.
#[derive(Clone, Copy)]
pub struct Typed {
    /// Their type.
    pub part: Part,
    /// Their form.
    pub form: Form,
}

impl TextWriter for Typed {
    fn write_text<W: Write>(self, bytes: &[u8], output: &mut W) -> io::Result<()> {
        write_stored(self.part, self.form, bytes, output)
    }
}
