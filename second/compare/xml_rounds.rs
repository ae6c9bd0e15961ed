//! Random trees and texts of XML, and all that is asked about each.

use crate::xml::shown;
use crate::xml_limits::BUFFERS;
use crate::{disagree, Comparison};
use questions::xml::{damaged_nodes, damaged_xml, named_tree, numbered_otherwise};
use second::answer;
use second::tree::Tree;
use second::verdict::{FillVerdict, SolverVerdict};
use second::LEAST_TEXT_BUFFER;

/// Something that makes a text of a tree another, which no tree has.
type Spoiling = (&'static str, fn(&mut Comparison, &str) -> Option<String>);

const SPOILINGS: [Spoiling; 9] = [
    ("a leaf of two tags refused with 16", Comparison::with_leaf_opened),
    ("a space refused with 16", |comparison, text| Some(comparison.with_inserted(text, " "))),
    ("a newline refused with 16", |comparison, text| Some(comparison.with_inserted(text, "\n"))),
    ("a newline at the end refused with 16", |_, text| Some(format!("{text}\n"))),
    ("another name in a closing tag refused with 16", Comparison::with_other_closing_name),
    ("another case in a closing tag refused with 16", Comparison::with_other_closing_case),
    ("two outermost elements refused with 16", |_, text| Some(text.repeat(2))),
    ("a text cut short refused with 16", |comparison, text| {
        Some(text[..comparison.random.below(text.len())].to_string())
    }),
    ("a name of two letters refused with 16", Comparison::with_longer_name),
];

impl Comparison {
    /// One random tree and all that is asked about it and its text.
    pub fn xml_round(&mut self) {
        let nodes = match self.random.below(4) {
            0 => self.random.pick(&[2, 3, 62, 63, 64, 64]),
            1 => 2 + self.random.below(63),
            _ => 2 + self.random.below(12),
        };
        let tree = named_tree(&mut self.random, nodes);
        let records = answer::write_nodes(&tree);
        let FillVerdict::Written(text) = self.tree_as_xml("random trees", &records) else {
            disagree("random trees", "a tree with names is refused");
        };
        self.same_tree_numbered_otherwise(&tree, &text);
        let buffer = self.random.pick(&BUFFERS);
        self.write_xml("random trees and buffers", &records, buffer);
        self.read_xml("random trees and buffers", &text, buffer);
        for _ in 0..4 {
            let damaged = damaged_nodes(&mut self.random, &records);
            self.tree_as_xml("damaged node records", &damaged);
            let buffer = self.random.pick(&BUFFERS);
            self.write_xml("damaged node records", &damaged, buffer);
        }
        for _ in 0..6 {
            self.damaged_text_of_tree(&text);
        }
        let text = String::from_utf8(text).expect("a text of letters");
        for (what, spoiled) in SPOILINGS {
            if let Some(spoiled) = spoiled(self, &text) {
                self.no_xml("texts of random trees, spoiled", spoiled.as_bytes());
                self.xml.note(what);
            }
        }
    }

    /// The same ordered labelled tree has the same text, however it is numbered.
    fn same_tree_numbered_otherwise(&mut self, tree: &Tree, text: &[u8]) {
        const SORT: &str = "random trees in another numbering";
        let other = numbered_otherwise(&mut self.random, tree);
        let said = self.tree_as_xml(SORT, &answer::write_nodes(&other));
        if said != FillVerdict::Written(text.to_vec()) {
            disagree(SORT, &format!("{said}, in another numbering\n{}", shown(text)));
        }
        self.xml.note_if(other != *tree, "one tree in two numberings");
    }

    /// Damage may make another right text, so that what is read is held to its own text.
    fn damaged_text_of_tree(&mut self, text: &[u8]) {
        let damaged = damaged_xml(&mut self.random, text);
        let verdict = self.text_as_tree("damaged texts of trees", &damaged);
        let buffer = self.random.pick(&BUFFERS);
        self.read_xml("damaged texts of trees", &damaged, buffer);
        if damaged != text {
            self.xml.note(match verdict {
                FillVerdict::Written(_) => "a damaged text read",
                FillVerdict::Refused(_) => "a random text damaged and refused with 16",
            });
        }
    }

    /// The solver's tree as XML, and its whole answer, of which places are no node records. A label of the question need be no letter.
    pub fn solution_as_xml(&mut self, verdict: &SolverVerdict) {
        let SolverVerdict::Tree { answer, .. } = verdict else { return };
        let nodes = answer.chunks(4).take_while(|record| record[0] == 1).count();
        match self.tree_as_xml("solver's trees", &answer[..4 * nodes]) {
            FillVerdict::Written(_) => self.xml.note("a solver's tree written"),
            FillVerdict::Refused(_) => self.xml.note("a solver's tree refused with 15"),
        }
        self.write_xml("solver's answers", answer, LEAST_TEXT_BUFFER);
        self.xml.note_if(4 * nodes < answer.len(), "a solver's answer with places refused with 9");
    }

    /// `<a></a>` in place of one `<a/>`.
    fn with_leaf_opened(&mut self, text: &str) -> Option<String> {
        let at = self.some_place_of(text, "/>")?;
        let name = &text[at - 1..at];
        Some(format!("{}></{name}>{}", &text[..at], &text[at + 2..]))
    }

    /// Something in front, behind or anywhere between.
    fn with_inserted(&mut self, text: &str, inserted: &str) -> String {
        let (front, back) = text.split_at(self.random.below(text.len() + 1));
        [front, inserted, back].concat()
    }

    /// Another letter in a tag that closes.
    fn with_other_closing_name(&mut self, text: &str) -> Option<String> {
        let at = self.some_place_of(text, "</")? + 2;
        let other = self.random.pick(&["a", "b", "Z", "_", "q"]);
        (text[at..at + 1] != *other).then(|| [&text[..at], other, &text[at + 1..]].concat())
    }

    /// The same letter in the other case; a blank has none.
    fn with_other_closing_case(&mut self, text: &str) -> Option<String> {
        let at = self.some_place_of(text, "</")? + 2;
        let name = text.as_bytes()[at] as char;
        let other = if name.is_ascii_uppercase() { name.to_ascii_lowercase() } else { name.to_ascii_uppercase() };
        (other != name).then(|| format!("{}{other}{}", &text[..at], &text[at + 1..]))
    }

    /// Two letters in place of one name, wherever it stands in a leaf.
    fn with_longer_name(&mut self, text: &str) -> Option<String> {
        let at = self.some_place_of(text, "/>")?;
        let letter = self.random.pick(&["a", "Z", "_", "1", "-"]);
        Some([&text[..at], letter, &text[at..]].concat())
    }

    /// One of the places at which the word stands.
    fn some_place_of(&mut self, text: &str, word: &str) -> Option<usize> {
        let places: Vec<usize> = text.match_indices(word).map(|(at, _)| at).collect();
        (!places.is_empty()).then(|| self.random.pick(&places))
    }
}
