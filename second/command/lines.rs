//! The lines of the text form, as the first table of "The text form" in docs/FORMAT.md has them, and records written as plain lines.

/// Which of the two files records stand in.
#[derive(Clone, Copy, PartialEq, Eq, Debug)]
pub enum Side {
    Question,
    Answer,
}

/// Of kinds 1 to 9.
const QUESTION_LINES: [&str; 9] = [
    "child X Y",
    "below X Y",
    "strictly-below X Y",
    "same X Y",
    "differ X Y",
    "root X",
    "leaf X",
    "label X LABEL",
    "before X Y",
];
/// Of kinds 1 and 2.
const ANSWER_LINES: [&str; 2] = ["node NUMBER PARENT LABEL", "var VARIABLE NODE"];
/// It may stand in front of an answer, and stands for no record.
pub const TREE_LINE: &str = "tree COUNT";

impl Side {
    pub fn lines(self) -> &'static [&'static str] {
        match self {
            Side::Question => &QUESTION_LINES,
            Side::Answer => &ANSWER_LINES,
        }
    }

    /// The kind of record whose line has this first word, and the line.
    pub fn line_of(self, word: &[u8]) -> Option<(u8, &'static str)> {
        let at = self.lines().iter().position(|line| first_word(line).as_bytes() == word)?;
        Some((at as u8 + 1, self.lines()[at]))
    }
}

pub fn first_word(line: &'static str) -> &'static str {
    line.split(' ').next().expect("a line has a word")
}

/// What stands behind the first word.
pub fn names(line: &'static str) -> impl Iterator<Item = &'static str> {
    line.split(' ').skip(1)
}

/// The byte of the record that a name of a line stands for.
pub fn byte_of(name: &str) -> usize {
    match name {
        "X" | "NUMBER" | "VARIABLE" => 1,
        "Y" | "PARENT" | "NODE" => 2,
        _ => 3,
    }
}

/// The words of a record's line; `label` writes labels.
pub fn words_of(side: Side, record: &[u8], mut label: impl FnMut(u8) -> String) -> Vec<String> {
    let line = side.lines()[record[0] as usize - 1];
    let word = |name: &str| match record[byte_of(name)] {
        byte if name == "LABEL" => label(byte),
        byte => byte.to_string(),
    };
    std::iter::once(first_word(line).to_string()).chain(names(line).map(word)).collect()
}

/// "Labels that are letters as letters and others as numbers."
pub fn as_letter(label: u8) -> String {
    if label.is_ascii_alphabetic() {
        (label as char).to_string()
    } else {
        label.to_string()
    }
}

/// As `solve` prints them.
pub fn as_number(label: u8) -> String {
    label.to_string()
}

/// A line for each record, its words parted by one space, each line ended by byte 10.
pub fn plain(side: Side, records: &[u8], label: fn(u8) -> String) -> String {
    records.chunks(4).map(|record| words_of(side, record, label).join(" ") + "\n").collect()
}

/// Is each record one that a line stands for?
pub fn has_lines(side: Side, records: &[u8]) -> bool {
    records.chunks(4).all(|record| match record {
        [kind, ..] if *kind == 0 || *kind as usize > side.lines().len() => false,
        [kind, rest @ ..] if rest.len() == 3 => {
            let used: Vec<usize> = names(side.lines()[*kind as usize - 1]).map(byte_of).collect();
            (1..=3).all(|byte| used.contains(&byte) || record[byte] == 0)
        }
        _ => false,
    })
}
