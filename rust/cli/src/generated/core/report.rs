// Generated from crates/odht_tool_core/src/report.rt by make generate.
//! Reports: lists of names and values. One writer prints text, the other a JSON object.

use crate::generated::core::advice::{write_help, Advice};
use crate::generated::core::histogram::{write_array, write_bars};
use crate::generated::core::json::displayed::write_displayed;
use crate::generated::core::json::write_string;
use crate::generated::core::refusal::Refusal;
use crate::generated::core::stretches::write_stretches;
use crate::generated::header::error::Error;
use crate::host::prelude::*;
use std::io::{self, Write};

/// A field of a report.
#[derive(Clone, Copy)]
pub struct Field<'a> {
    /// Its name in the object.
    pub name: &'a str,
    /// Its value.
    pub value: Value<'a>,
    /// The words around its value in the text. None for a field that only the object has.
    pub words: Option<Words<'a>>,
}

/// The value of a field.
#[derive(Clone, Copy)]
pub enum Value<'a> {
    /// No value: null in the object.
    Absent,
    /// True or false.
    Truth(bool),
    /// A number.
    Number(u128),
    /// A number of groups. If it exceeds the bound, the text says only that.
    Groups { count: usize, bound: Option<usize> },
    /// A text.
    Text(&'a str),
    /// The text of an error of a table.
    Refused(Error),
    /// The number of occupied slots in each stretch of a table with `slot_count` slots. The text
    /// has one character for each.
    Stretches { slot_count: usize, counts: &'a [usize] },
    /// The counts of a histogram, up to the longest number of groups. The text has a line for each.
    Histogram { counts: &'a [usize], longest: usize },
    /// The command that makes the searches of this file shorter. The object has only its options.
    Help { advice: Advice, file: &'a str, is_whole: bool },
}

/// The words around a value in the text.
#[derive(Clone, Copy)]
pub struct Words<'a> {
    /// The words before it.
    pub before: &'a str,
    /// The words after it.
    pub after: &'a str,
    /// The words written instead if there is no value, or if the value is false.
    pub otherwise: &'a str,
}

impl<'a> Words<'a> {
    /// These words around a value, and no words if there is no value.
    pub fn between(before: &'a str, after: &'a str) -> Option<Words<'a>> {
        Some(Words { before, after, otherwise: "" })
    }
}

impl Value<'_> {
    /// The number, if there is one.
    pub fn of_number(number: Option<usize>) -> Value<'static> {
        match number {
            Some(number) => Value::Number(number as u128),
            None => Value::Absent,
        }
    }
}

/// Writes a report: the text, or the object in one line.
pub fn write_report<O: Write>(
    report: &[Field<'_>],
    is_json: bool,
    output: &mut O,
) -> io::Result<()> {
    if is_json {
        write_object(report, output)?;
        output.write_all(b"\n")
    } else {
        write_text(report, output)
    }
}

/// Writes a report as one of several: the text, or the object without a line end.
pub fn write_among<O: Write>(
    report: &[Field<'_>],
    is_json: bool,
    output: &mut O,
) -> io::Result<()> {
    if is_json {
        write_object(report, output)
    } else {
        write_text(report, output)
    }
}

// Writes the text of a report.
fn write_text<O: Write>(report: &[Field<'_>], output: &mut O) -> io::Result<()> {
    for field in report {
        write_field(field, output)?;
    }
    Ok(())
}

// Writes the object of a report.
fn write_object<O: Write>(report: &[Field<'_>], output: &mut O) -> io::Result<()> {
    let mut mark = b'{';
    for field in report {
        write_member(mark, field, output)?;
        mark = b',';
    }
    if mark == b'{' {
        return output.write_all(b"{}");
    }
    output.write_all(b"}")
}

// Writes the text of a field.
fn write_field<O: Write>(field: &Field<'_>, output: &mut O) -> io::Result<()> {
    match &field.words {
        Some(words) => write_words(words, &field.value, output),
        None => Ok(()),
    }
}

// Writes what is said with the words round it.
fn write_words<O: Write>(words: &Words<'_>, value: &Value<'_>, output: &mut O) -> io::Result<()> {
    if !is_said(value) {
        return output.write_all(words.otherwise.as_bytes());
    }
    output.write_all(words.before.as_bytes())?;
    write_plain(value, output)?;
    output.write_all(words.after.as_bytes())
}

// Whether something is said, and not that something is not so.
fn is_said(value: &Value<'_>) -> bool {
    match value {
        Value::Absent => false,
        Value::Truth(is_so) => *is_so,
        _ => true,
    }
}

// Writes a value of a text.
fn write_plain<O: Write>(value: &Value<'_>, output: &mut O) -> io::Result<()> {
    match *value {
        Value::Absent | Value::Truth(_) => Ok(()),
        Value::Number(number) => write!(output, "{number}"),
        Value::Groups { count, bound } => write_groups(count, bound, output),
        Value::Text(text) => output.write_all(text.as_bytes()),
        Value::Refused(error) => {
            let refusal = Refusal(error);
            write!(output, "{refusal}")
        }
        Value::Stretches { slot_count, counts } => write_stretches(slot_count, counts, output),
        Value::Histogram { counts, longest } => write_bars(counts, longest, output),
        Value::Help { advice, file, is_whole } => write_help(advice, file, is_whole, output),
    }
}

// Writes a number of groups, or that it is above the bound.
fn write_groups<O: Write>(count: usize, bound: Option<usize>, output: &mut O) -> io::Result<()> {
    match bound {
        Some(bound) if bound < count => write!(output, "more than {bound} groups"),
        _ => write!(output, "{count} groups"),
    }
}

// Writes a field of an object, behind a brace or a comma.
fn write_member<O: Write>(mark: u8, field: &Field<'_>, output: &mut O) -> io::Result<()> {
    output.write_all(&[mark])?;
    let name = field.name;
    write!(output, "\"{name}\":")?;
    write_value(&field.value, output)
}

// Writes a value of an object.
fn write_value<O: Write>(value: &Value<'_>, output: &mut O) -> io::Result<()> {
    match *value {
        Value::Absent => output.write_all(b"null"),
        Value::Truth(true) => output.write_all(b"true"),
        Value::Truth(false) => output.write_all(b"false"),
        Value::Number(number) => write!(output, "{number}"),
        Value::Groups { count, .. } => write!(output, "{count}"),
        Value::Text(text) => write_string(text.as_bytes(), output),
        Value::Refused(error) => write_displayed(Refusal(error), output),
        Value::Stretches { counts, .. } => write_array(counts, counts.len(), output),
        Value::Histogram { counts, longest } => write_array(counts, longest, output),
        Value::Help { advice, is_whole, .. } => {
            write_string(advice.options(is_whole).as_bytes(), output)
        }
    }
}
