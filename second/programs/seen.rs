//! The sorts of what has been run, and which must come up.

use runner::Sorts;
use second::constraint::KIND_NAMES;
use second::verdict::{FillVerdict, MarkerVerdict, SolverVerdict};
use second::Refusal;

#[derive(Default)]
pub struct Seen(Sorts);

impl Seen {
    pub fn note(&mut self, sort: impl Into<String>) {
        self.0.note(sort);
    }

    pub fn solve(&mut self, constraints: &[u8], verdict: &SolverVerdict) {
        self.note(format!("solve: {}", length_of(constraints)));
        match verdict {
            SolverVerdict::Tree { count, answer } => {
                self.note("solve: tree");
                if labels(constraints).any(|(_, label)| label.is_ascii_uppercase()) {
                    self.note("solve: a capital printed as its small letter");
                }
                self.note(format!("solve: {} in a count", digits(*count)));
                for node in answer.chunks(4).filter(|record| record[0] == 1) {
                    for (name, number) in [("parent", node[2]), ("label", node[3])] {
                        if number > 0 {
                            self.note(format!("solve: {} in a {name}", digits(number)));
                        }
                    }
                }
            }
            SolverVerdict::None { count } => {
                self.note("solve: none");
                self.note(format!("solve: {} in a count", digits(*count)));
            }
            SolverVerdict::Spent { count } => self.note(format!("solve: spent {count}")),
            SolverVerdict::Refused(Refusal(question)) => self.note(format!("solve: refused {question}")),
        }
    }

    pub fn mark(&mut self, constraints: &[u8], answer: &[u8], verdict: &MarkerVerdict) {
        self.note(format!("mark: {}", length_of(constraints)));
        self.note(match answer.len() {
            0..=4_095 => "mark: an answer below 4,096 bytes",
            4_096 => "mark: an answer of 4,096 bytes",
            4_097..=65_536 => "mark: an answer above 4,096 bytes",
            _ => "mark: an answer above 65,536 bytes",
        });
        match verdict {
            MarkerVerdict::Met => {
                self.note("mark: met");
                if labels(constraints).any(|(variable, label)| label_drawn(answer, variable) != label) {
                    self.note("mark: met in the other case");
                }
            }
            MarkerVerdict::Unmet { position, kind } => {
                self.note(format!("mark: unmet {}", KIND_NAMES[*kind as usize - 1]));
                self.note(format!("mark: {} in a position", digits(*position)));
            }
            MarkerVerdict::Refused(Refusal(question)) => self.note(format!("mark: refused {question}")),
        }
    }

    pub fn paths(&mut self, text: &[u8], verdict: &FillVerdict) {
        self.note(format!("paths: {}", length_of(text)));
        if text.iter().any(u8::is_ascii_uppercase) {
            self.note(match verdict {
                FillVerdict::Written(_) => "paths: a capital written",
                FillVerdict::Refused(_) => "paths: a capital refused",
            });
        }
        match verdict {
            FillVerdict::Written(records) => self.note(match records.len() {
                4 => "paths: one record written",
                180 => "paths: 45 records written",
                _ => "paths: records written",
            }),
            FillVerdict::Refused(Refusal(question)) => self.note(format!("paths: refused {question}")),
        }
    }

    pub fn toxml(&mut self, nodes: &[u8], verdict: &FillVerdict) {
        self.note(format!("toxml: {}", length_of_nodes(nodes)));
        match verdict {
            FillVerdict::Written(text) => {
                self.note(if text.len() == 438 { "toxml: 438 bytes written" } else { "toxml: a text written" });
                for (sort, holds) in [
                    ("a blank", text.contains(&b'_')),
                    ("a capital", text.iter().any(u8::is_ascii_uppercase)),
                    ("a small letter", text.iter().any(u8::is_ascii_lowercase)),
                ] {
                    if holds {
                        self.note(format!("toxml: {sort} written"));
                    }
                }
            }
            FillVerdict::Refused(Refusal(question)) => self.note(format!("toxml: refused {question}")),
        }
    }

    pub fn fromxml(&mut self, text: &[u8], verdict: &FillVerdict) {
        self.note(format!("fromxml: {}", length_of_xml(text)));
        match verdict {
            FillVerdict::Written(nodes) => {
                self.note(if nodes.len() == 256 { "fromxml: 64 nodes written" } else { "fromxml: nodes written" });
            }
            FillVerdict::Refused(Refusal(question)) => self.note(format!("fromxml: refused {question}")),
        }
    }

    /// How many sorts must come up, or the first of them that did not.
    pub fn all_that_must(&self) -> Result<usize, String> {
        self.0.all_of(must_be_seen())
    }
}

fn must_be_seen() -> Vec<String> {
    let mut sorts: Vec<String> = Vec::new();
    for program in ["solve", "mark", "paths"] {
        sorts.extend(LENGTHS.map(|length| format!("{program}: {length}")));
    }
    for program in ["solve", "mark", "paths", "toxml", "fromxml"] {
        let lost = ["is a full device", "is closed", "has room for three bytes"];
        sorts.extend(lost.map(|how| format!("{program}: standard output {how}")));
        sorts.extend(["usage", "in pieces", "at once"].map(|sort| format!("{program}: {sort}")));
    }
    for program in ["solve", "mark"] {
        sorts.extend((1..=6).map(|question| format!("{program}: refused {question}")));
    }
    for program in ["solve", "paths", "toxml", "fromxml"] {
        sorts.extend(["is a folder", "is closed"].map(|how| format!("{program}: standard input {how}")));
    }
    sorts.extend(["tree", "none", "spent 1000000"].map(|sort| format!("solve: {sort}")));
    sorts.extend(["solve: a capital printed as its small letter", "mark: met in the other case"].map(String::from));
    sorts.extend(["written", "refused"].map(|how| format!("paths: a capital {how}")));
    sorts.extend((1..=6).map(|count| format!("solve: {} in a count", digits_of(count))));
    for (number, most) in [("parent", 2), ("label", 3)] {
        sorts.extend((1..=most).map(|count| format!("solve: {} in a {number}", digits_of(count))));
    }
    sorts.extend(["met", "a file that is not there", "a folder"].map(|sort| format!("mark: {sort}")));
    sorts.extend(KIND_NAMES.map(|kind| format!("mark: unmet {kind}")));
    sorts.extend((1..=3).map(|count| format!("mark: {} in a position", digits_of(count))));
    sorts.extend((8..=12).map(|question| format!("mark: refused {question}")));
    let answers = ["below 4,096", "of 4,096", "above 4,096", "above 65,536"];
    sorts.extend(answers.map(|length| format!("mark: an answer {length} bytes")));
    sorts.extend(["one record", "records", "45 records"].map(|count| format!("paths: {count} written")));
    sorts.extend([13, 14].map(|question| format!("paths: refused {question}")));
    sorts.extend(["tree", "none", "refused 2"].map(|verdict| format!("paths: piped on to solve, {verdict}")));
    sorts.extend(of_xml());
    sorts
}

/// Of trees as XML; 17 cannot come up, since the programs' own buffers are long enough.
fn of_xml() -> Vec<String> {
    let mut sorts: Vec<String> = Vec::new();
    sorts.extend(LENGTHS_OF_NODES.map(|length| format!("toxml: {length}")));
    sorts.extend(LENGTHS_OF_XML.map(|length| format!("fromxml: {length}")));
    sorts.extend([8, 9, 10, 11, 15].map(|question| format!("toxml: refused {question}")));
    let written = ["a text", "438 bytes", "a blank", "a capital", "a small letter"];
    sorts.extend(written.map(|what| format!("toxml: {what} written")));
    sorts.extend(["nodes written", "64 nodes written", "refused 16"].map(|what| format!("fromxml: {what}")));
    for (from, to) in [("toxml", "fromxml"), ("fromxml", "toxml"), ("fromxml", "mark")] {
        sorts.extend(["as written", "refused"].map(|how| format!("{from}: piped on to {to}, {how}")));
    }
    sorts
}

const LENGTHS: [&str; 5] = ["no byte", "below 1,024 bytes", "1,024 bytes", "1,025 bytes", "above 1,025 bytes"];

fn length_of(constraints: &[u8]) -> &'static str {
    LENGTHS[match constraints.len() {
        0 => 0,
        1..=1_023 => 1,
        1_024 => 2,
        1_025 => 3,
        _ => 4,
    }]
}

const LENGTHS_OF_NODES: [&str; 6] =
    ["no byte", "up to 64 nodes", "above 64 nodes", "above 4,096 bytes", "above 65,536 bytes", "above 999,999 bytes"];

fn length_of_nodes(nodes: &[u8]) -> &'static str {
    LENGTHS_OF_NODES[match nodes.len() {
        0 => 0,
        1..=256 => 1,
        257..=4_096 => 2,
        4_097..=65_536 => 3,
        65_537..=999_999 => 4,
        _ => 5,
    }]
}

const LENGTHS_OF_XML: [&str; 7] = [
    "no byte",
    "below 438 bytes",
    "438 bytes",
    "above 438 bytes",
    "above 4,096 bytes",
    "above 65,536 bytes",
    "above 999,999 bytes",
];

fn length_of_xml(text: &[u8]) -> &'static str {
    LENGTHS_OF_XML[match text.len() {
        0 => 0,
        1..=437 => 1,
        438 => 2,
        439..=4_096 => 3,
        4_097..=65_536 => 4,
        65_537..=999_999 => 5,
        _ => 6,
    }]
}

/// The variable and the label of each label record.
fn labels(constraints: &[u8]) -> impl Iterator<Item = (u8, u8)> + '_ {
    constraints.chunks(4).filter(|record| record[0] == 8).map(|record| (record[1], record[3]))
}

/// The label of the node that the variable is on, in an answer that is not refused.
fn label_drawn(answer: &[u8], variable: u8) -> u8 {
    let nodes = answer.chunks(4).take_while(|record| record[0] == 1).count();
    let node = answer[4 * (nodes + variable as usize) + 2];
    answer[4 * node as usize + 3]
}

fn digits(number: impl ToString) -> String {
    digits_of(number.to_string().len())
}

fn digits_of(count: usize) -> String {
    format!("{count} digit{}", if count == 1 { "" } else { "s" })
}
