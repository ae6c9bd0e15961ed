//! The reader of the text form ("The text form" in docs/FORMAT.md): the records and where their words stand, or the first word that is wrong.

use crate::complaint::Complaint;
use crate::lines::{byte_of, first_word, names, Side, TREE_LINE};
use std::fmt;

/// "Both are counted from 1, columns in bytes, those of the front included."
#[derive(Clone, Copy, PartialEq, Eq, Debug)]
pub struct Spot {
    pub line: usize,
    pub column: usize,
}

impl fmt::Display for Spot {
    fn fmt(&self, f: &mut fmt::Formatter) -> fmt::Result {
        write!(f, "line {}, column {}", self.line, self.column)
    }
}

/// The spot of a byte of a file, or the one behind its last byte.
pub fn spot_of(file: &[u8], at: usize) -> Spot {
    let before = &file[..at];
    let column = before.iter().rev().take_while(|&&byte| byte != b'\n').count() + 1;
    Spot { line: before.iter().filter(|&&byte| byte == b'\n').count() + 1, column }
}

pub struct Text {
    pub records: Vec<Vec<u8>>,
    /// The spots of the words of each record's line.
    pub words: Vec<Vec<Spot>>,
    pub end: Spot,
}

struct Word<'a> {
    bytes: &'a [u8],
    at: Spot,
}

impl Word<'_> {
    fn behind(&self) -> Spot {
        Spot { column: self.at.column + self.bytes.len(), ..self.at }
    }
}

/// Some editors put these at the front of a file.
pub const FRONT: &[u8] = b"\xef\xbb\xbf";

pub fn read(side: Side, file: &[u8]) -> Result<Text, (Complaint, Spot)> {
    let mut text = Text { records: Vec::new(), words: Vec::new(), end: spot_of(file, file.len()) };
    let lines = lines_with_words(file);
    let tree_line = |words: &[Word]| side == Side::Answer && words[0].bytes == first_word(TREE_LINE).as_bytes();
    for (at, words) in lines.iter().enumerate() {
        if at == 0 && tree_line(words) {
            read_words(&words[1..], words[0].behind(), TREE_LINE)?;
            continue;
        }
        let Some((kind, line)) = side.line_of(words[0].bytes) else {
            return Err((Complaint::NoRecord(side, words[0].bytes.to_vec()), words[0].at));
        };
        let mut record = vec![kind, 0, 0, 0];
        for (name, number) in names(line).zip(read_words(&words[1..], words[0].behind(), line)?) {
            record[byte_of(name)] = number as u8;
        }
        text.records.push(record);
        text.words.push(words.iter().map(|word| word.at).collect());
    }
    if text.records.is_empty() {
        return Err((Complaint::Empty, text.end));
    }
    Ok(text)
}

/// The first word of a text, comments passed over.
pub fn first_word_of(file: &[u8]) -> Option<&[u8]> {
    lines_with_words(file).first().map(|words| words[0].bytes)
}

/// "A line ends at byte 10, at bytes 13 and 10, or with the file. Lines without a word are passed over, and so is all from `#` to the end of its
/// line."
fn lines_with_words(file: &[u8]) -> Vec<Vec<Word<'_>>> {
    let pieces: Vec<&[u8]> = file.split(|&byte| byte == b'\n').collect();
    let mut lines = Vec::new();
    for (at, &piece) in pieces.iter().enumerate() {
        let front = if at == 0 && piece.starts_with(FRONT) { FRONT.len() } else { 0 };
        // The last piece is ended by the file.
        let ended = if at + 1 < pieces.len() { piece.strip_suffix(b"\r").unwrap_or(piece) } else { piece };
        let end = ended.iter().position(|&byte| byte == b'#').unwrap_or(ended.len());
        let words = words_of(&ended[..end], front, at + 1);
        if !words.is_empty() {
            lines.push(words);
        }
    }
    lines
}

/// "Words and numbers are parted by spaces and tabs."
fn words_of(line: &[u8], front: usize, number: usize) -> Vec<Word<'_>> {
    let mut words = Vec::new();
    let mut at = front;
    while at < line.len() {
        let length = line[at..].iter().take_while(|&&byte| byte != b' ' && byte != b'\t').count();
        if length > 0 {
            words.push(Word { bytes: &line[at..at + length], at: Spot { line: number, column: at + 1 } });
        }
        at += length + 1;
    }
    words
}

/// The numbers that the words behind the first stand for, from the left, so that the first word that is wrong is told.
fn read_words(words: &[Word], mut behind: Spot, line: &'static str) -> Result<Vec<u64>, (Complaint, Spot)> {
    let mut numbers = Vec::new();
    let mut words = words.iter();
    for name in names(line) {
        let word = words.next().ok_or((Complaint::TooShort(line), behind))?;
        numbers.push(read_word(word, name).map_err(|complaint| (complaint, word.at))?);
        behind = word.behind();
    }
    match words.next() {
        Some(word) => Err((Complaint::TooLong(line), word.at)),
        None => Ok(numbers),
    }
}

fn read_word(word: &Word, name: &str) -> Result<u64, Complaint> {
    let most = if name == "COUNT" { u32::MAX as u64 } else { 255 };
    match (name, word.bytes) {
        ("LABEL", [letter]) if letter.is_ascii_alphabetic() => Ok(*letter as u64),
        ("LABEL", bytes) => number(bytes, most).ok_or(Complaint::NoLabel(bytes.to_vec())),
        (_, bytes) => number(bytes, most).ok_or(Complaint::NoNumber(bytes.to_vec(), most)),
    }
}

/// "A number has decimal digits alone, any number of them."
fn number(bytes: &[u8], most: u64) -> Option<u64> {
    if bytes.is_empty() || !bytes.iter().all(u8::is_ascii_digit) {
        return None;
    }
    let add = |number: u64, digit: &u8| (10 * number + (digit - b'0') as u64).min(most + 1);
    let number = bytes.iter().fold(0, add);
    (number <= most).then_some(number)
}
