//! The sorts of what has been run, and which must come up.

use crate::lines::{Side, TREE_LINE};
use crate::noise;
use runner::Sorts;
use second::constraint::KIND_NAMES;

#[derive(Default)]
pub struct Seen(Sorts);

impl Seen {
    pub fn note(&mut self, sort: impl Into<String>) {
        self.0.note(sort);
    }

    /// How many sorts must come up, or the first of them that did not.
    pub fn all_that_must(&self) -> Result<usize, String> {
        self.0.all_of(must_be_seen())
    }
}

fn must_be_seen() -> Vec<String> {
    [noises(), given(), marks(), solves(), conversions()].concat()
}

fn noises() -> Vec<String> {
    let sorts = noise::SORTS.iter().chain(&["bytes 13 and 10"]);
    sorts.map(|sort| format!("noise: {sort}")).collect()
}

/// How a command is given its file.
fn given() -> Vec<String> {
    const SORTS: [&str; 6] = [
        "from standard input",
        "from -",
        "-- before the name",
        "a name with control characters",
        "options behind the name",
        "a file",
    ];
    ["solve", "paths", "xml"].iter().flat_map(|command| SORTS.map(|sort| format!("{command}: {sort}"))).collect()
}

/// Refusals of questions, with where they stand in text.
const REFUSED_QUESTIONS: [&str; 17] = [
    "bytes: refused 1",
    "bytes: refused 2",
    "bytes: refused 3",
    "bytes: refused 4",
    "bytes: refused 5",
    "bytes: refused 6",
    "text: refused 1 at a record",
    "text: refused 4 at word 1",
    "text: refused 4 at word 1 first",
    "text: refused 4 at word 2",
    "text: refused 5 at word 2",
    "paths: refused 13 for its form",
    "paths: refused 13 for its bytes",
    "paths: refused 13 for its lines",
    "paths: refused 13 at the end",
    "paths: refused 14 at a byte",
    "text: no record in the text",
];

const REFUSED_ANSWERS: [&str; 19] = [
    "bytes: refused 8",
    "bytes: refused 9",
    "bytes: refused 10",
    "bytes: refused 11",
    "bytes: refused 12",
    "text: refused 9 at a record",
    "text: refused 10 at a record",
    "text: refused 10 at the end",
    "text: refused 11 at word 1",
    "text: refused 11 at word 1 first",
    "text: refused 11 at word 2",
    "text: refused 11 at word 2 first",
    "text: refused 11 at word 3",
    "text: refused 12 at word 1",
    "text: refused 12 at word 1 first",
    "text: refused 12 at word 2",
    "text: refused 12 at the end",
    "text: no number from 0 to 4294967295",
    "text: no record in the text",
];

/// Complaints that come up of either file.
fn complaints(lines: &[&str]) -> Vec<String> {
    let words = ["tree", "of the other file", "cut", "with octal digits", "as it stands"];
    let mut sorts: Vec<String> = words.iter().map(|word| format!("text: no record, {word}")).collect();
    sorts.extend(["no number from 0 to 255", "no label"].map(|sort| format!("text: {sort}")));
    for line in lines {
        sorts.extend(["short", "long"].map(|how| format!("text: too {how} for {line}")));
    }
    sorts
}

fn marks() -> Vec<String> {
    let mut sorts = Vec::new();
    let questions = REFUSED_QUESTIONS.map(String::from).into_iter().chain(complaints(Side::Question.lines()));
    sorts.extend(questions.map(|sort| format!("mark: question in {sort}")));
    let answer_lines = [Side::Answer.lines(), &[TREE_LINE]].concat();
    let answers = REFUSED_ANSWERS.map(String::from).into_iter().chain(complaints(&answer_lines));
    sorts.extend(answers.map(|sort| format!("mark: answer in {sort}")));
    for form in ["bytes", "text", "paths"] {
        sorts.push(format!("mark: question in {form}: met"));
        // Paths write no differ and no leaf.
        let kinds = KIND_NAMES.iter().filter(|&&kind| form != "paths" || !["differ", "leaf"].contains(&kind));
        sorts.extend(kinds.map(|kind| format!("mark: question in {form}: unmet {kind}")));
    }
    sorts.extend(
        ["question in text", "answer in bytes", "answer in text"].map(|file| format!("mark: {file}: too large")),
    );
    sorts.extend(["text", "paths"].map(|form| format!("mark: question in {form}: unmet behind line 1")));
    sorts.extend([0, 1, 3, 4].map(|status| format!("mark: several answers, status {status}")));
    sorts.extend(["question", "answer", "list"].map(|file| format!("mark: {file} on standard input")));
    sorts.extend(["question", "answer"].map(|file| format!("mark: {file} that is not there")));
    sorts.extend(
        ["mark: a tab in a list", "mark: spaces in a list", "mark: a name with control characters"].map(String::from),
    );
    sorts
}

fn solves() -> Vec<String> {
    let mut sorts = Vec::new();
    for form in ["bytes", "text", "paths"] {
        for printing in ["Text", "Bytes", "Drawing"] {
            sorts.extend(["tree", "none"].map(|verdict| format!("solve: {form}, {printing}: {verdict}")));
        }
    }
    for form in ["bytes", "text"] {
        sorts.push(format!("solve: {form}, Text: spent"));
    }
    sorts.push("solve: bytes, Bytes: spent".to_string());
    sorts.extend(REFUSED_QUESTIONS.map(|sort| format!("solve: {sort}")));
    for name in ["the document node", "a blank"] {
        sorts.extend(["no", "one", "several"].map(|on_it| format!("drawing: {name}, {on_it} variables")));
    }
    // A label is asked of a variable.
    for name in ["a letter", "a number"] {
        sorts.extend(["one", "several"].map(|on_it| format!("drawing: {name}, {on_it} variables")));
    }
    sorts.extend(["solve: then marked", "solve: text: too large"].map(String::from));
    sorts
}

fn conversions() -> Vec<String> {
    let mut sorts = Vec::new();
    sorts.extend(["text", "bytes"].map(|printed| format!("paths: written as {printed}")));
    let refused = ["13 for its form", "13 for its bytes", "13 for its lines", "13 at the end", "14 at a byte"];
    sorts.extend(refused.map(|sort| format!("paths: paths: refused {sort}")));
    let converted = [
        "bytes to XML",
        "text to XML",
        "XML to text",
        "XML to bytes",
        "text with places to XML",
        "bytes with places to XML",
    ];
    sorts.extend(converted.map(|sort| format!("xml: {sort}")));
    sorts.extend([8, 9, 10, 11, 15].map(|number| format!("xml: bytes: refused {number}")));
    let text = [
        "9 at a record",
        "10 at a record",
        "10 at the end",
        "11 at word 1",
        "11 at word 2",
        "11 at word 3",
        "15 at word 3",
    ];
    sorts.extend(text.map(|sort| format!("xml: text: refused {sort}")));
    let xml = ["for its form", "for its elements", "at the end"];
    sorts.extend(xml.map(|sort| format!("xml: XML: refused 16 {sort}")));
    sorts.push("xml: text: no record in the text".to_string());
    sorts.extend(["bytes", "text"].map(|form| format!("xml: {form}: too large")));
    sorts
}
