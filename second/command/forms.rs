//! Which form a file has: "told by what is in it" ("The text form" in docs/FORMAT.md).

use crate::reader::first_word_of;

#[derive(Clone, Copy, PartialEq, Eq, Debug)]
pub enum Form {
    Bytes,
    Records,
    Paths,
    Xml,
}

impl Form {
    /// A name for what has come up.
    pub fn name(self) -> &'static str {
        match self {
            Form::Bytes => "bytes",
            Form::Records => "text",
            Form::Paths => "paths",
            Form::Xml => "XML",
        }
    }
}

/// "An empty file is bytes, and so is a file with a byte 0. Any other is text."
fn is_bytes(file: &[u8]) -> bool {
    file.is_empty() || file.contains(&0)
}

/// "A question's text is of paths if there is a `/` or a `:` in its first word, comments passed over; else it is of records."
pub fn of_question(file: &[u8]) -> Form {
    match first_word_of(file) {
        _ if is_bytes(file) => Form::Bytes,
        Some(word) if word.contains(&b'/') || word.contains(&b':') => Form::Paths,
        _ => Form::Records,
    }
}

pub fn of_answer(file: &[u8]) -> Form {
    if is_bytes(file) {
        Form::Bytes
    } else {
        Form::Records
    }
}

/// "Where a tree is turned into XML or back, text whose first byte is `<` is XML."
pub fn of_tree(file: &[u8]) -> Form {
    match of_answer(file) {
        Form::Records if file.starts_with(b"<") => Form::Xml,
        form => form,
    }
}
