//! The records of a file and where they stand in it, and a refusal with its words and its place.

use crate::complaint::Complaint;
use crate::forms::Form;
use crate::lines::Side;
use crate::places::At;
use crate::reader::{self, spot_of, Spot, Text};
use crate::words;

#[derive(Clone, Debug)]
pub struct Refused {
    /// A text that is not of the text form is refused without a number.
    pub number: Option<u8>,
    pub words: String,
    /// "`line L, column C` of text and `record N` of bytes." A file that is too large has none.
    pub place: Option<String>,
    /// A name for what has come up.
    pub sort: String,
}

/// The records of a file, and where they stand in it.
pub struct Held {
    pub form: Form,
    pub records: Vec<u8>,
    /// Of text records.
    text: Option<Text>,
    /// Of paths: how many records are written when each line has been read.
    records_by_line: Vec<usize>,
}

impl Held {
    pub fn of_paths(records: Vec<u8>, records_by_line: Vec<usize>) -> Held {
        Held { form: Form::Paths, records, text: None, records_by_line }
    }

    /// The line of the file that a record is from, if it is text.
    pub fn line_of(&self, record: usize) -> Option<usize> {
        match self.form {
            Form::Records => self.text.as_ref().map(|text| text.words[record][0].line),
            Form::Paths => self.records_by_line.iter().position(|&records| record < records).map(|line| line + 1),
            _ => None,
        }
    }

    fn place(&self, at: At) -> String {
        match (&self.text, at) {
            (None, At::Record(record) | At::Word(record, _)) => format!("record {record}"),
            (None, At::End) => format!("record {}", self.records.len() / 4),
            (Some(text), At::Record(record)) => text.words[record][0].to_string(),
            (Some(text), At::Word(record, word)) => text.words[record][word].to_string(),
            (Some(text), At::End) => text.end.to_string(),
        }
    }

    /// Records that a question refuses at a place.
    pub fn refused(&self, number: u8, at: At) -> Refused {
        let which = match (at, &self.text) {
            (_, None) => String::new(),
            (At::Record(_), _) => " at a record".to_string(),
            (At::Word(record, word), _) if self.has_other_fault(number, record, word) => {
                format!(" at word {word} first")
            }
            (At::Word(_, word), _) => format!(" at word {word}"),
            (At::End, _) => " at the end".to_string(),
        };
        let sort = format!("{}: refused {number}{which}", self.form.name());
        let words = words::of_question(number).to_string();
        Refused { number: Some(number), words, place: Some(self.place(at)), sort }
    }

    /// Is the next word of the record wrong too, so that the order shows? Of x and y, of number and parent, of parent and label of node 0, and of
    /// variable and node.
    fn has_other_fault(&self, number: u8, record: usize, word: usize) -> bool {
        let nodes = self.records.chunks(4).take_while(|record| record[0] == 1).count();
        let [kind, _, second, third] = self.records[4 * record..][..4] else { return false };
        match (number, word) {
            (4, 1) => ![6, 7, 8].contains(&kind) && second > 15,
            (11, 1) => second as usize >= record.max(1),
            (11, 2) => record == 0 && third != 0,
            (12, 1) => second as usize >= nodes,
            _ => false,
        }
    }
}

/// A text of paths or of XML that is refused at a byte, or at its end.
pub fn refused_at(number: u8, form: Form, file: &[u8], (at, why): (usize, &str)) -> Refused {
    let sort = format!("{}: refused {number} {why}", form.name());
    let words = words::of_question(number).to_string();
    Refused { number: Some(number), words, place: Some(spot_of(file, at).to_string()), sort }
}

fn not_of_the_form((complaint, at): (Complaint, Spot)) -> Refused {
    let sort = format!("text: {}", complaint.sort());
    Refused { number: None, words: complaint.words(), place: Some(at.to_string()), sort }
}

/// The largest file that is read; a larger question of bytes gets 1 all the same, and larger XML 16.
pub const MOST_BYTES: usize = 16_777_216;

fn too_large(form: Form) -> Refused {
    let words = format!("the file has more than {MOST_BYTES} bytes");
    Refused { number: None, words, place: None, sort: format!("{}: too large", form.name()) }
}

/// The records of a file of bytes or of text records, if it is of the form.
pub fn held(side: Side, form: Form, file: &[u8]) -> Result<Held, Refused> {
    if file.len() > MOST_BYTES && !(side == Side::Question && form == Form::Bytes) {
        return Err(too_large(form));
    }
    if form == Form::Bytes {
        return Ok(Held { form, records: file.to_vec(), text: None, records_by_line: Vec::new() });
    }
    let text = reader::read(side, file).map_err(not_of_the_form)?;
    Ok(Held { form, records: text.records.concat(), text: Some(text), records_by_line: Vec::new() })
}
