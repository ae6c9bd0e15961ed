//! Trees as XML (document 02, request (vii)): the archive held to the second side, both to the comparison's own rules, and the request's
//! theorems as checks.

use crate::ordered::Element;
use crate::{disagree, Comparison};
use second::verdict::{hex, FillVerdict, MarkerVerdict};
use second::{Refusal, LEAST_NODES_BUFFER, LEAST_TEXT_BUFFER};

impl Comparison {
    /// Node records to the writer.
    pub fn write_xml(&mut self, sort: &'static str, records: &[u8], buffer: usize) -> FillVerdict {
        let verdict = second::xml_write(records, buffer);
        if let Err(disagreement) = archive::hold_xml_write(records, buffer, &verdict) {
            disagree(sort, &disagreement.0);
        }
        let failed = failed_questions(records, buffer);
        let by_rule = match failed.first() {
            Some(&question) => FillVerdict::Refused(Refusal(question)),
            None => FillVerdict::Written(Element::drawn(records).text().into_bytes()),
        };
        if verdict != by_rule {
            disagree(sort, &format!("{verdict}, by the rule {by_rule}\nbuffer {buffer}\nrecords {}", hex(records)));
        }
        self.tally_xml(sort, "write", &verdict);
        self.note_xml_written(records, buffer, &failed, &verdict);
        verdict
    }

    /// A text to the reader. What is read must be a tree that has this text, in document order.
    pub fn read_xml(&mut self, sort: &'static str, text: &[u8], buffer: usize) -> FillVerdict {
        let verdict = second::xml_read(text, buffer);
        if let Err(disagreement) = archive::hold_xml_read(text, buffer, &verdict) {
            disagree(sort, &disagreement.0);
        }
        if let FillVerdict::Written(records) = &verdict {
            let is_a_tree = failed_questions(records, 512).is_empty();
            let is_this_one = |tree: Element| tree.text().as_bytes() == text && tree.records() == *records;
            if !is_a_tree || !is_this_one(Element::drawn(records)) {
                disagree(sort, &format!("{verdict}, which is another tree or numbered otherwise\n{}", shown(text)));
            }
        }
        self.tally_xml(sort, "read", &verdict);
        self.note_xml_read(text, buffer, &verdict);
        verdict
    }

    /// Counted apart for the writer and the reader, since both must come to written and to 17.
    fn tally_xml(&mut self, sort: &'static str, what: &str, verdict: &FillVerdict) {
        match verdict {
            FillVerdict::Written(_) => self.tally(sort, format!("xml {what}, written")),
            FillVerdict::Refused(Refusal(question)) => self.tally(sort, format!("xml {what}, refused {question}")),
        }
    }

    /// Node records with a buffer that is long enough. "The tree read is the one written, numbered in document order"; written again it has
    /// the same text.
    pub fn tree_as_xml(&mut self, sort: &'static str, records: &[u8]) -> FillVerdict {
        let verdict = self.write_xml(sort, records, LEAST_TEXT_BUFFER);
        if let FillVerdict::Written(text) = &verdict {
            let back = self.text_as_tree("texts written, read back", text);
            let expected = FillVerdict::Written(Element::drawn(records).records());
            if back != expected {
                let records = hex(records);
                disagree(sort, &format!("read back {back}, expected {expected}\n{}\nrecords {records}", shown(text)));
            }
        }
        verdict
    }

    /// A text with a buffer that is long enough. The records read are an answer file of no places, and are written as this text.
    pub fn text_as_tree(&mut self, sort: &'static str, text: &[u8]) -> FillVerdict {
        let verdict = self.read_xml(sort, text, LEAST_NODES_BUFFER);
        if let FillVerdict::Written(records) = &verdict {
            let again = self.write_xml("trees read, written again", records, LEAST_TEXT_BUFFER);
            if again != FillVerdict::Written(text.to_vec()) {
                disagree(sort, &format!("read {verdict}, written again {again}\n{}", shown(text)));
            }
            let marked = self.mark("trees read, marked to no constraint", &[], records);
            if marked != MarkerVerdict::Met {
                disagree(sort, &format!("read {verdict}, marked {marked}\n{}", shown(text)));
            }
        }
        verdict
    }

    /// A text that is not of the form, and why: "text that the writer does not produce".
    pub fn no_xml(&mut self, sort: &'static str, text: &[u8]) {
        let said = self.read_xml(sort, text, LEAST_NODES_BUFFER);
        if said != FillVerdict::Refused(Refusal(16)) {
            disagree(sort, &format!("{said}, by the rule refused 16\n{}", shown(text)));
        }
    }
}

/// Every question that node records and the buffer for their text fail, in the order in which they are asked: a rule of the comparison's own,
/// which puts each question whatever the others say, 10, 11 and 15 to the records that are nodes.
pub fn failed_questions(file: &[u8], buffer: usize) -> Vec<u8> {
    let nodes: Vec<&[u8]> = file.chunks_exact(4).filter(|record| record[0] == 1).collect();
    let is_name = |label: u8| label == 0 || label.is_ascii_alphabetic();
    let answers = [
        (8, file.len() % 4 == 0),
        (9, nodes.len() == file.len() / 4),
        (10, nodes.len() > 1 && nodes.len() < 65),
        (11, wrong_in_nodes(&nodes).is_empty()),
        (17, buffer > 511),
        (15, nodes.iter().all(|record| is_name(record[3]))),
    ];
    answers.into_iter().filter(|&(_, is_yes)| !is_yes).map(|(question, _)| question).collect()
}

/// What question 11 finds wrong.
pub fn wrong_in_nodes(nodes: &[&[u8]]) -> Vec<&'static str> {
    let (document_node, elements) = nodes.split_at(nodes.len().min(1));
    let is_numbered = |(position, record): (usize, &&[u8])| record[1] as usize == position;
    let has_parent = |(before, record): (usize, &&[u8])| (record[2] as usize) < before + 1;
    let later_elements = elements.iter().skip(1);
    let answers = [
        ("an own number", nodes.iter().enumerate().all(is_numbered)),
        ("a parent of node 0", document_node.iter().all(|record| record[2] == 0)),
        ("a label of node 0", document_node.iter().all(|record| record[3] == 0)),
        ("a parent that is not smaller", elements.iter().enumerate().all(has_parent)),
        ("a second child of node 0", later_elements.clone().all(|record| record[2] != 0)),
    ];
    answers.into_iter().filter(|&(_, is_right)| !is_right).map(|(what, _)| what).collect()
}

/// A text may have any bytes.
pub fn shown(text: &[u8]) -> String {
    format!("text {}", text.escape_ascii())
}
