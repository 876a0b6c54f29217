// Generated from crates/odht_tool_core/src/written.rt by make generate.
//! What is written of keys and values: a number in decimal digits, with a sign or without, bytes in
//! hexadecimal digits or as plain text, and nothing at all.

use crate::generated::core::digits::write_number;
use crate::generated::core::forms::Form;
use crate::generated::core::hexadecimal::no_plain_bytes;
use crate::generated::core::plain::{plain_of, write_plain};
use crate::generated::core::signed::write_signed;
use crate::generated::core::text::write_bytes;
use crate::host::prelude::*;
use std::io::{self, Write};

/// A key or a value that has a text in each form.
pub trait Written {
    /// The text, where it may have any bytes. None where each is a character that stands for
    /// itself in strings of JSON.
    fn plain_bytes(&self, form: Form) -> Option<&[u8]>;

    /// Writes the text.
    fn write<W: Write>(&self, form: Form, output: &mut W) -> io::Result<()>;
}

impl Written for u32 {
    fn plain_bytes(&self, _form: Form) -> Option<&[u8]> {
        None
    }

    #[inline(always)]
    fn write<W: Write>(&self, form: Form, output: &mut W) -> io::Result<()> {
        match form {
            Form::Signed => write_signed(u64::from(*self), u64::from(u32::MAX), output),
            Form::BigEndian => write_number(u64::from(self.swap_bytes()), output),
            _ => write_number(u64::from(*self), output),
        }
    }
}

impl Written for u64 {
    fn plain_bytes(&self, _form: Form) -> Option<&[u8]> {
        None
    }

    #[inline(always)]
    fn write<W: Write>(&self, form: Form, output: &mut W) -> io::Result<()> {
        match form {
            Form::Signed => write_signed(*self, u64::MAX, output),
            Form::BigEndian => write_number(self.swap_bytes(), output),
            _ => write_number(*self, output),
        }
    }
}

impl Written for () {
    fn plain_bytes(&self, _form: Form) -> Option<&[u8]> {
        None
    }

    fn write<W: Write>(&self, _form: Form, output: &mut W) -> io::Result<()> {
        output.write_all(b"")
    }
}

impl<const N: usize> Written for [u8; N] {
    fn plain_bytes(&self, form: Form) -> Option<&[u8]> {
        match form {
            Form::Plain => Some(plain_of(self)),
            _ => no_plain_bytes(self),
        }
    }

    #[inline(always)]
    fn write<W: Write>(&self, form: Form, output: &mut W) -> io::Result<()> {
        match form {
            Form::Plain => write_plain(self, output),
            _ => write_bytes(self, output),
        }
    }
}
