// Generated from crates/odht_tool_core/src/json/answers.rt by make generate.
//! Keys that were looked up, and their values, as lines of text or as objects of JSON.

use crate::generated::core::answers::{write_answer, write_answers_as};
use crate::generated::core::forms::{Form, Forms};
use crate::generated::core::json::pairs::write_any_field;
use crate::generated::core::plain::is_plain;
use crate::generated::core::shown::Shown;
use crate::generated::core::written::Written;
use crate::host::prelude::*;
use std::io::{self, Write};

/// What is printed of each key.
#[derive(Clone, Copy)]
pub struct Printed {
    /// Whether it is an object of JSON.
    pub is_json: bool,
    /// Whether it is the value without the key.
    pub is_values: bool,
}

/// How keys and their values are written.
#[derive(Clone, Copy)]
pub struct AnswerStyle<F: Forms> {
    /// The forms of their texts.
    pub forms: F,
    /// What is printed of them.
    pub printed: Printed,
}

/// Writes a line for each key: with its value, or the key alone where it has none; or an object of
/// both, in which such a value is null. Or the line has only the value, and is empty where the key
/// has none. With no keys it writes nothing, and does not fail.
pub fn write_answers_in<K: Written, V: Written, F: Forms, O: Write>(
    keys: &[K],
    values: &[Option<V>],
    style: AnswerStyle<F>,
    output: &mut O,
) -> io::Result<()> {
    let Printed { is_json, is_values } = style.printed;
    if is_json || is_values {
        write_each(keys, values, style, output)
    } else {
        write_answers_as(keys, values, style.forms, output)
    }
}

// The same, of which what is printed is looked at for each key.
fn write_each<K: Written, V: Written, F: Forms, O: Write>(
    keys: &[K],
    values: &[Option<V>],
    style: AnswerStyle<F>,
    output: &mut O,
) -> io::Result<()> {
    for at in 0..keys.len() {
        write_answer_in(&keys[at], &values[at], style, output)?;
    }
    Ok(())
}

/// Writes the line of one key, as [`write_answers_in`] does.
pub fn write_answer_in<K: Written, V: Written, F: Forms, O: Write>(
    key: &K,
    value: &Option<V>,
    style: AnswerStyle<F>,
    output: &mut O,
) -> io::Result<()> {
    let Printed { is_json, is_values } = style.printed;
    if is_values {
        write_value(value, style.forms.value(), is_json, output)
    } else if is_json {
        write_object(key, value, style.forms, output)
    } else {
        write_answer(key, value, style.forms, output)
    }
}

/// Writes the line of a word that is the text of no key: the word, as it is or as messages show
/// it, or an object of it, in which the value is null. Or the line has only the value, which is
/// absent.
pub fn write_no_key<O: Write>(word: &[u8], printed: Printed, output: &mut O) -> io::Result<()> {
    if printed.is_values {
        write_no_value(printed.is_json, output)
    } else {
        write_word(word, printed.is_json, output)
    }
}

// Writes the line of a word that is the text of no key, with the word.
fn write_word<O: Write>(word: &[u8], is_json: bool, output: &mut O) -> io::Result<()> {
    if is_json {
        write_no_key_object(word, output)
    } else if is_in_line(word) {
        output.write_all(word)?;
        output.write_all(b"\n")
    } else {
        let word = Shown(word);
        writeln!(output, "{word}")
    }
}

// Writes the object of a word that is the text of no key.
fn write_no_key_object<O: Write>(word: &[u8], output: &mut O) -> io::Result<()> {
    output.write_all(b"{")?;
    write_any_field("key", word, output)?;
    output.write_all(b",\"value\":null}\n")
}

// Whether a word is one field of one line.
fn is_in_line(word: &[u8]) -> bool {
    word.iter().all(|byte| is_plain(*byte))
}

// Writes the line of a value.
fn write_value<V: Written, O: Write>(
    value: &Option<V>,
    form: Form,
    is_json: bool,
    output: &mut O,
) -> io::Result<()> {
    match value {
        Some(value) if is_json => write_value_object(value, form, output),
        Some(value) => {
            value.write(form, output)?;
            output.write_all(b"\n")
        }
        None => write_no_value(is_json, output),
    }
}

// Writes the object of a value on a line.
fn write_value_object<V: Written, O: Write>(
    value: &V,
    form: Form,
    output: &mut O,
) -> io::Result<()> {
    output.write_all(b"{")?;
    write_text_field("value", value, form, output)?;
    output.write_all(b"}\n")
}

// Writes the line of a value that is absent.
fn write_no_value<O: Write>(is_json: bool, output: &mut O) -> io::Result<()> {
    if is_json {
        output.write_all(b"{\"value\":null}\n")
    } else {
        output.write_all(b"\n")
    }
}

// Writes the object of a key and its value on a line, or of the key alone.
fn write_object<K: Written, V: Written, F: Forms, O: Write>(
    key: &K,
    value: &Option<V>,
    forms: F,
    output: &mut O,
) -> io::Result<()> {
    match value {
        Some(value) => write_found(key, value, forms, output),
        None => write_absent(key, forms.key(), output),
    }
}

// Writes the object of a key and its value.
fn write_found<K: Written, V: Written, F: Forms, O: Write>(
    key: &K,
    value: &V,
    forms: F,
    output: &mut O,
) -> io::Result<()> {
    output.write_all(b"{")?;
    write_fields(key, value, forms, output)
}

// Writes the fields of a key and its value, the end of their object, and of its line.
fn write_fields<K: Written, V: Written, F: Forms, O: Write>(
    key: &K,
    value: &V,
    forms: F,
    output: &mut O,
) -> io::Result<()> {
    write_text_field("key", key, forms.key(), output)?;
    output.write_all(b",")?;
    write_text_field("value", value, forms.value(), output)?;
    output.write_all(b"}\n")
}

// Writes the object of a key that is absent.
fn write_absent<K: Written, O: Write>(key: &K, form: Form, output: &mut O) -> io::Result<()> {
    output.write_all(b"{")?;
    write_text_field("key", key, form, output)?;
    output.write_all(b",\"value\":null}\n")
}

// Writes a field that is the text of a key or a value.
fn write_text_field<T: Written, O: Write>(
    name: &str,
    value: &T,
    form: Form,
    output: &mut O,
) -> io::Result<()> {
    if let Some(text) = value.plain_bytes(form) {
        return write_any_field(name, text, output);
    }
    write!(output, "\"{name}\":\"")?;
    value.write(form, output)?;
    output.write_all(b"\"")
}
