//! Records as noisy lines: everything that the text form passes over or leaves open, drawn by chance.

use crate::lines::{as_letter, as_number, words_of, Side};
use crate::reader::FRONT;
use questions::Random;
use std::collections::BTreeSet;

/// What comments may say; `/`, `:` and `#` among it, and bytes that are no text.
const COMMENTS: [&[u8]; 10] = [
    b"",
    b" a comment",
    b"child 0 1",
    b" /child::a",
    b"# #",
    b"\t\xc3\xa4\xff\xfe",
    b" tree 5",
    b"\r carriage",
    b"<a/>",
    b"'WORD' is wrong",
];

pub struct Noisy {
    pub bytes: Vec<u8>,
    /// Names for what has come up.
    pub sorts: BTreeSet<&'static str>,
}

/// How much noise there is: each sort of it about once in so many times.
struct Writer<'a> {
    random: &'a mut Random,
    noisy: Noisy,
    seldom: usize,
    carriage: usize,
}

pub fn noisy(random: &mut Random, side: Side, records: &[u8]) -> Noisy {
    let (seldom, carriage) = (random.pick(&[2, 3, 6, 20]), random.pick(&[1, 2, 9, 99]));
    let noisy = Noisy { bytes: Vec::new(), sorts: BTreeSet::new() };
    let mut writer = Writer { random, noisy, seldom, carriage };
    if writer.once_in_a_while("the front") {
        writer.noisy.bytes.extend(FRONT);
    }
    writer.between();
    if side == Side::Answer && writer.once_in_a_while("a tree line") {
        let count = writer.random.pick(&["0", "7", "007", "1000000", "4294967295", "000000000004294967295"]);
        writer.line(&["tree".to_string(), count.to_string()]);
    }
    for record in records.chunks(4) {
        writer.between();
        let words = writer.words(side, record);
        writer.line(&words);
    }
    writer.between();
    writer.last();
    writer.noisy
}

impl Writer<'_> {
    fn once_in_a_while(&mut self, sort: &'static str) -> bool {
        let now = self.random.one_in(self.seldom);
        if now {
            self.noisy.sorts.insert(sort);
        }
        now
    }

    /// Labels as letter or as number, numbers with zeros in front.
    fn words(&mut self, side: Side, record: &[u8]) -> Vec<String> {
        let style = if self.random.one_in(2) { as_letter } else { as_number };
        let mut words = words_of(side, record, style);
        for word in &mut words[1..] {
            if word.as_bytes()[0].is_ascii_digit() && self.once_in_a_while("leading zeros") {
                *word = "0".repeat(self.random.pick(&[1, 2, 30])) + word;
            }
        }
        words
    }

    /// Lines without a word.
    fn between(&mut self) {
        while self.once_in_a_while("a line without a word") {
            self.space("space in an empty line");
            self.comment("a comment alone");
            self.end();
        }
    }

    fn line(&mut self, words: &[String]) {
        self.space("space before the first word");
        for (at, word) in words.iter().enumerate() {
            if at > 0 && self.once_in_a_while("tabs and runs of spaces") {
                let run = self.random.pick(&[&b"\t"[..], b"  ", b" \t ", b"\t\t\t", b"            "]);
                self.noisy.bytes.extend(run);
            } else if at > 0 {
                self.noisy.bytes.push(b' ');
            }
            self.noisy.bytes.extend(word.as_bytes());
        }
        self.space("space behind the last word");
        self.comment("a comment behind words");
        self.end();
    }

    fn space(&mut self, sort: &'static str) {
        if self.once_in_a_while(sort) {
            let run = self.random.pick(&[&b" "[..], b"\t", b" \t  "]);
            self.noisy.bytes.extend(run);
        }
    }

    fn comment(&mut self, sort: &'static str) {
        if self.once_in_a_while(sort) {
            let comment = self.random.pick(&COMMENTS);
            self.noisy.bytes.push(b'#');
            self.noisy.bytes.extend(comment);
        }
    }

    fn end(&mut self) {
        if self.random.one_in(self.carriage) {
            self.noisy.sorts.insert("bytes 13 and 10");
            self.noisy.bytes.push(b'\r');
        }
        self.noisy.bytes.push(b'\n');
    }

    /// The last line may be ended by the file.
    fn last(&mut self) {
        let ended = self.noisy.bytes.ends_with(b"\n");
        if ended && self.once_in_a_while("no newline at the end") {
            self.noisy.bytes.pop();
            while self.noisy.bytes.ends_with(b"\r") {
                self.noisy.bytes.pop();
            }
        }
    }
}

/// The names of all sorts of noise.
pub const SORTS: [&str; 11] = [
    "the front",
    "a tree line",
    "leading zeros",
    "a line without a word",
    "space in an empty line",
    "a comment alone",
    "space before the first word",
    "tabs and runs of spaces",
    "space behind the last word",
    "a comment behind words",
    "no newline at the end",
];
