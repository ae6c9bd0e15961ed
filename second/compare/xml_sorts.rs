//! Trees as XML: what of them came up, and what must.

use crate::ordered::Element;
use crate::xml::wrong_in_nodes;
use crate::Comparison;
use second::verdict::FillVerdict;
use second::Refusal;

pub const XML: [&str; 61] = [
    // Orders of questions: a file that fails both gets the first.
    "8 before 9",
    "9 before 10",
    "10 before 11",
    "11 before 17",
    "17 before 15",
    "17 before 16",
    // Refused, with nothing wrong but this.
    "a place record behind the nodes refused with 9",
    "kind 0 refused with 9",
    "kind 3 refused with 9",
    "no record refused with 10",
    "one node refused with 10",
    "65 nodes refused with 10",
    "an own number refused with 11",
    "a parent of node 0 refused with 11",
    "a label of node 0 refused with 11",
    "a parent that is not smaller refused with 11",
    "a second child of node 0 refused with 11",
    "label 1 refused with 15",
    "label 64 refused with 15",
    "label 91 refused with 15",
    "label 95 refused with 15",
    "label 96 refused with 15",
    "label 123 refused with 15",
    "label 255 refused with 15",
    "511 bytes for a text refused with 17",
    "255 bytes for nodes refused with 17",
    // Written.
    "512 bytes for a text",
    "2 nodes written",
    "63 nodes written",
    "64 nodes written",
    "438 bytes written",
    "a blank written",
    "a capital written",
    "a small letter written",
    "A, Z, a and z written",
    "both cases of a letter written",
    "a tree numbered otherwise than in document order",
    "one tree in two numberings",
    "a solver's tree written",
    "a solver's tree refused with 15",
    "a solver's answer with places refused with 9",
    // Read.
    "256 bytes for nodes",
    "2 nodes read",
    "63 nodes read",
    "64 nodes read",
    "438 bytes read",
    "a damaged text read",
    // Refused with 16, with nothing wrong but this.
    "65 nodes refused with 16",
    "no text refused with 16",
    "a leaf of two tags refused with 16",
    "a space refused with 16",
    "a newline refused with 16",
    "a newline at the end refused with 16",
    "another name in a closing tag refused with 16",
    "another case in a closing tag refused with 16",
    "two outermost elements refused with 16",
    "a text cut short refused with 16",
    "a name of two letters refused with 16",
    "a label that is no name refused with 16",
    "a random text damaged and refused with 16",
    "above 100,000 bytes refused with 16",
];

impl Comparison {
    /// Of node records: what was written, or why not.
    pub fn note_xml_written(&mut self, records: &[u8], buffer: usize, failed: &[u8], verdict: &FillVerdict) {
        match verdict {
            FillVerdict::Refused(_) => self.note_nodes_refused(records, buffer, failed),
            FillVerdict::Written(text) => {
                self.xml.note_if(buffer == 512, "512 bytes for a text");
                self.xml.note_if_asked_for(&format!("{} nodes written", records.len() / 4));
                self.xml.note_if(text.len() == 438, "438 bytes written");
                self.note_letters_written(text);
                let in_document_order = Element::drawn(records).records() == records;
                self.xml.note_if(!in_document_order, "a tree numbered otherwise than in document order");
            }
        }
    }

    /// Which sorts of names a text has; case must not be lost.
    fn note_letters_written(&mut self, text: &[u8]) {
        let has = |letter: &u8| text.contains(letter);
        self.xml.note_if(has(&b'_'), "a blank written");
        self.xml.note_if(text.iter().any(u8::is_ascii_uppercase), "a capital written");
        self.xml.note_if(text.iter().any(u8::is_ascii_lowercase), "a small letter written");
        self.xml.note_if(b"AZaz".iter().all(has), "A, Z, a and z written");
        let has_both = |letter: u8| has(&letter) && has(&letter.to_ascii_lowercase());
        self.xml.note_if((b'A'..=b'Z').any(has_both), "both cases of a letter written");
    }

    /// By the first two questions that fail, or by what is wrong where only one does.
    fn note_nodes_refused(&mut self, records: &[u8], buffer: usize, failed: &[u8]) {
        let nodes: Vec<&[u8]> = records.chunks_exact(4).collect();
        match failed {
            [first, second, ..] => self.xml.note_if_asked_for(&format!("{first} before {second}")),
            [9] => {
                let kinds: Vec<u8> = nodes.iter().map(|record| record[0]).collect();
                let place_behind = kinds.iter().skip_while(|&&kind| kind == 1).all(|&kind| kind == 2);
                self.xml.note_if(place_behind, "a place record behind the nodes refused with 9");
                let other = kinds.iter().find(|&&kind| kind != 1).expect("a record that is no node");
                self.xml.note_if_asked_for(&format!("kind {other} refused with 9"));
            }
            [10] => self.xml.note_if_asked_for(match nodes.len() {
                0 => "no record refused with 10",
                1 => "one node refused with 10",
                65 => "65 nodes refused with 10",
                _ => "another number of nodes",
            }),
            [11] => {
                if let [wrong] = wrong_in_nodes(&nodes).as_slice() {
                    self.xml.note_if_asked_for(&format!("{wrong} refused with 11"));
                }
            }
            [15] => {
                let labels = nodes.iter().map(|record| record[3]);
                let mut no_names = labels.filter(|&label| label != 0 && !label.is_ascii_alphabetic());
                let first = no_names.next().expect("a label that is no name");
                self.xml.note_if_asked_for(&format!("label {first} refused with 15"));
            }
            [17] => self.xml.note_if(buffer == 511, "511 bytes for a text refused with 17"),
            _ => {}
        }
    }

    /// Of a text: how much was read, or why not.
    pub fn note_xml_read(&mut self, text: &[u8], buffer: usize, verdict: &FillVerdict) {
        match verdict {
            FillVerdict::Written(records) => {
                self.xml.note_if(buffer == 256, "256 bytes for nodes");
                self.xml.note_if_asked_for(&format!("{} nodes read", records.len() / 4));
                self.xml.note_if(text.len() == 438, "438 bytes read");
            }
            FillVerdict::Refused(Refusal(16)) => {
                self.xml.note_if(text.is_empty(), "no text refused with 16");
                self.xml.note_if(text.len() > 100_000, "above 100,000 bytes refused with 16");
            }
            FillVerdict::Refused(_) => {
                let is_of_the_form = second::xml::read(text).is_some();
                self.xml.note_if(!is_of_the_form, "17 before 16");
                self.xml.note_if(is_of_the_form && buffer == 255, "255 bytes for nodes refused with 17");
            }
        }
    }
}
