//! What is said of a text that is not of the text form: the second table of "The text form" in docs/FORMAT.md.

use crate::lines::Side;

#[derive(Clone, PartialEq, Eq, Debug)]
pub enum Complaint {
    NoRecord(Side, Vec<u8>),
    NoNumber(Vec<u8>, u64),
    NoLabel(Vec<u8>),
    TooShort(&'static str),
    TooLong(&'static str),
    Empty,
}

impl Complaint {
    pub fn words(&self) -> String {
        match self {
            Complaint::NoRecord(Side::Question, word) => format!("'{}' is no record of a question", shown(word)),
            Complaint::NoRecord(Side::Answer, word) => format!("'{}' is no record of an answer", shown(word)),
            Complaint::NoNumber(word, most) => format!("'{}' is no number from 0 to {most}", shown(word)),
            Complaint::NoLabel(word) => format!("'{}' is neither a letter nor a number from 0 to 255", shown(word)),
            Complaint::TooShort(line) => format!("the line is too short for {line}"),
            Complaint::TooLong(line) => format!("the line is too long for {line}"),
            Complaint::Empty => "there is no record in the text".to_string(),
        }
    }

    /// A name for what has come up.
    pub fn sort(&self) -> String {
        match self {
            Complaint::NoRecord(_, word) => format!("no record, {}", sort_of(word)),
            Complaint::NoNumber(_, most) => format!("no number from 0 to {most}"),
            Complaint::NoLabel(_) => "no label".to_string(),
            Complaint::TooShort(line) => format!("too short for {line}"),
            Complaint::TooLong(line) => format!("too long for {line}"),
            Complaint::Empty => "no record in the text".to_string(),
        }
    }
}

/// "A WORD of more than 20 bytes is cut there, with `...` behind it; bytes that are not 33 to 126 are written as `\` and three octal digits."
fn shown(word: &[u8]) -> String {
    let (front, more) = if word.len() > 20 { (&word[..20], "...") } else { (word, "") };
    let byte = |&byte: &u8| match byte {
        33..=126 => (byte as char).to_string(),
        _ => format!("\\{byte:03o}"),
    };
    front.iter().map(byte).collect::<String>() + more
}

fn sort_of(word: &[u8]) -> &'static str {
    let other = |side: Side| side.line_of(word).is_some();
    match word {
        b"tree" => "tree",
        _ if other(Side::Question) || other(Side::Answer) => "of the other file",
        _ if word.len() > 20 => "cut",
        _ if !word.iter().all(|byte| (33..=126).contains(byte)) => "with octal digits",
        _ => "as it stands",
    }
}
