//! The document node (document 02, request (v)): what of it came up, and what must.

use crate::Comparison;
use second::closure::Clash;
use second::constraint::{self, number_of_variables, Constraint};
use second::search::{Join, Trace};
use second::tree::{Assignment, DOCUMENT_NODE, OUTERMOST_ELEMENT};
use second::verdict::{MarkerVerdict, SolverVerdict};
use second::{answer, Refusal};

pub const DOCUMENT: [&str; 22] = [
    "a tree by the first alternative of a fourth join",
    "a tree by the second alternative of a fourth join",
    "a fourth join of a variable that no record names",
    "none after a fourth join",
    "spent after a fourth join",
    "leaf on the document node",
    "label on the document node",
    "two children of a root made the same",
    "two children of a root made the same, then a clash",
    "a document node added",
    "no document node added",
    "a blank element added under a document node that is added",
    "a blank element added under a root",
    "no blank element added under a document node that is added",
    "no blank element added under a root",
    "a blank element over no group, of an empty file",
    "a blank element over no group, under a root",
    "18 nodes and 16 places: 136 bytes written",
    "refused 7 with 135 bytes",
    "one node refused with 10",
    "a labelled node 0 refused with 11",
    "a second child of node 0 refused with 11",
];

impl Comparison {
    pub fn note_document(&mut self, file: &[u8], buffer: usize, verdict: &SolverVerdict, trace: &Trace) {
        for &clash in &trace.clashes {
            match clash {
                Clash::LeafOnDocumentNode => self.document.note("leaf on the document node"),
                Clash::LabelOnDocumentNode => self.document.note("label on the document node"),
                _ => {}
            }
        }
        for &(join, alternative) in &trace.line {
            if let Join::Document { w, .. } = join {
                self.document.note(match alternative {
                    0 => "a tree by the first alternative of a fourth join",
                    _ => "a tree by the second alternative of a fourth join",
                });
                let is_named = read(file).iter().any(|record| record.variables().contains(&w));
                self.document.note_if(!is_named, "a fourth join of a variable that no record names");
            }
        }
        self.document.note_if(trace.made_one_child, "two children of a root made the same");
        let ends_in_clash = matches!(verdict, SolverVerdict::None { count: 0 });
        self.document
            .note_if(trace.made_one_child && ends_in_clash, "two children of a root made the same, then a clash");
        match verdict {
            SolverVerdict::Tree { answer, .. } => self.note_tree(file, answer),
            SolverVerdict::None { .. } => self.document.note_if(trace.of_fourth_joins > 0, "none after a fourth join"),
            SolverVerdict::Spent { .. } => {
                self.document.note_if(trace.of_fourth_joins > 0, "spent after a fourth join")
            }
            SolverVerdict::Refused(Refusal(7)) => self.document.note_if(buffer == 135, "refused 7 with 135 bytes"),
            SolverVerdict::Refused(_) => {}
        }
    }

    /// Nodes without a variable are those that were added.
    fn note_tree(&mut self, file: &[u8], answer_file: &[u8]) {
        let variables = number_of_variables(&read(file));
        let (tree, assignment) = answer::read(answer_file, variables).expect("an answer of the second solver");
        let is_added = |node| assignment.lowest_variable_on(node).is_none();
        let (document_node, element) = (is_added(DOCUMENT_NODE), is_added(OUTERMOST_ELEMENT));
        self.document.note(if document_node { "a document node added" } else { "no document node added" });
        self.document.note(match (element, document_node) {
            (true, true) => "a blank element added under a document node that is added",
            (true, false) => "a blank element added under a root",
            (false, true) => "no blank element added under a document node that is added",
            (false, false) => "no blank element added under a root",
        });
        if element && tree.parents.len() == 2 {
            self.document.note(match assignment {
                Assignment(places) if places.is_empty() => "a blank element over no group, of an empty file",
                _ => "a blank element over no group, under a root",
            });
        }
        self.document.note_if(answer_file.len() == 136, "18 nodes and 16 places: 136 bytes written");
    }

    pub fn note_document_marked(&mut self, answer_file: &[u8], verdict: &MarkerVerdict) {
        let nodes: Vec<&[u8]> = answer_file.chunks(4).take_while(|record| record[0] == 1).collect();
        match verdict {
            MarkerVerdict::Refused(Refusal(10)) => self.document.note_if(nodes.len() == 1, "one node refused with 10"),
            MarkerVerdict::Refused(Refusal(11)) => {
                let is_plain =
                    |(at, record): (usize, &&[u8])| record[1] as usize == at && (record[2] as usize) < at.max(1);
                let all_plain = nodes.iter().enumerate().all(is_plain);
                let second_child = nodes.iter().skip(2).any(|record| record[2] == 0);
                let labelled = nodes[0][3] != 0;
                self.document.note_if(all_plain && labelled && !second_child, "a labelled node 0 refused with 11");
                self.document
                    .note_if(all_plain && !labelled && second_child, "a second child of node 0 refused with 11");
            }
            _ => {}
        }
    }
}

fn read(file: &[u8]) -> Vec<Constraint> {
    constraint::read(file).expect("an accepted file")
}
