//! The line format of `examples/`.
//!
//!     # what the file is about
//!     question NAME           starts a question; its constraint records or its paths follow
//!     child 0 1               ... below, strictly-below, same, differ, before; root 0, leaf 0; label 0 a (or the label's number)
//!     times 256 leaf 0        a record so many times
//!     bytes 01 00 ff          bytes as they are
//!     path child::a[/]        a line of paths with its byte 10, so the question is for the reader of paths
//!     text child::a           the same without byte 10
//!     paths                   the same without a byte, for a text that has neither of them
//!     nodes                   node records follow, which are to be written as XML
//!     xml <a><b/></a>         a text of XML, to be read; xml alone is one without a byte
//!     buffer 135              the lent buffer; unless said 136, for paths 1024, for XML to be written 512 and to be read 256
//!     allowance 5             1000000 unless said
//!     answer                  a candidate's answer follows, so the question is for the marker
//!     node 0 0 a              number, parent, label
//!     var 0 0                 variable, node
//!     gives tree 2            then its records; or none 2, spent 1, refused 7, met, unmet 0 child; of paths written, then the records; of XML
//!                             written, then its text as xml or its nodes
//!     then none 0             what is given to what was written, a question of its own: by the solver to records, by the reader of XML to a
//!                             text, by its writer to nodes
//!     total 10                a session total; the records of its centres follow
//!     centre 2 6 0            guarantee, cap, drawn; the centres are numbered from 0
//!     draw 0 5                centre, amount: a draw from the list as the draws before it in the question leave it
//!     gives granted           then what each centre has drawn after it, as drawn 5 0 3; or refused 19, which leaves the list as it was

use crate::session::Session;
use crate::{Expected, Question};
use second::constraint::KIND_NAMES;
use second::verdict::{parse_fill, parse_marker, parse_solver, FillVerdict, SolverVerdict};
use second::{LEAST_BUFFER, LEAST_NODES_BUFFER, LEAST_RECORDS_BUFFER, LEAST_TEXT_BUFFER};

/// A verdict in words and the records that follow it.
type Gives = (Vec<String>, Vec<u8>);

/// Whom a question is for; one with an answer is the marker's.
#[derive(Clone, Copy, PartialEq, Eq)]
enum Asked {
    Solver,
    ReaderOfPaths,
    WriterOfXml,
    ReaderOfXml,
}

/// A question as far as it has been read.
struct Draft {
    name: String,
    file: Vec<u8>,
    asked: Asked,
    buffer: Option<usize>,
    allowance: u32,
    answer: Option<Vec<u8>>,
    gives: Option<Gives>,
    then: Option<Gives>,
    session: Session,
}

impl Draft {
    fn new(name: String) -> Draft {
        Draft {
            name,
            file: Vec::new(),
            asked: Asked::Solver,
            buffer: None,
            allowance: 1_000_000,
            answer: None,
            gives: None,
            then: None,
            session: Session::default(),
        }
    }
}

pub fn questions(text: &str) -> Result<Vec<Question>, String> {
    let mut drafts: Vec<Draft> = Vec::new();
    for (at, line) in text.lines().enumerate() {
        let words: Vec<&str> = line.split_whitespace().collect();
        match words.as_slice() {
            [] => {}
            [first, ..] if first.starts_with('#') => {}
            ["question", name @ ..] => drafts.push(Draft::new(name.join(" "))),
            _ => {
                let draft = drafts.last_mut().ok_or("a line before the first question")?;
                read_line(draft, &words).ok_or_else(|| format!("line {}: {line}", at + 1))?;
            }
        }
    }
    let mut questions = Vec::new();
    for draft in &drafts {
        questions.extend(finish(draft).ok_or_else(|| format!("{}: no verdict that can be read", draft.name))?);
    }
    Ok(questions)
}

fn read_line(draft: &mut Draft, words: &[&str]) -> Option<()> {
    let verdict_in = |words: &[&str]| Some((words.iter().map(|word| word.to_string()).collect(), Vec::new()));
    match words {
        _ if draft.session.read_line(words).is_some() => {}
        ["buffer", length] => draft.buffer = Some(length.parse().ok()?),
        ["allowance", allowance] => draft.allowance = allowance.parse().ok()?,
        ["answer"] => draft.answer = Some(Vec::new()),
        ["paths"] => draft.asked = Asked::ReaderOfPaths,
        ["nodes"] => draft.asked = Asked::WriterOfXml,
        ["gives", verdict @ ..] => draft.gives = verdict_in(verdict),
        ["then", verdict @ ..] => draft.then = verdict_in(verdict),
        _ => {
            if draft.gives.is_none() {
                draft.asked = asked_by(words).unwrap_or(draft.asked);
            }
            let file = match (&mut draft.then, &mut draft.gives, &mut draft.answer) {
                (Some((_, records)), _, _) | (None, Some((_, records)), _) => records,
                (None, None, Some(answer)) => answer,
                (None, None, None) => &mut draft.file,
            };
            file.extend(bytes_of(words)?);
        }
    }
    Some(())
}

/// Whom a line of the question's own file is for, if it tells; what is given may be a text too.
fn asked_by(words: &[&str]) -> Option<Asked> {
    match words {
        _ if words.contains(&"path") || words.contains(&"text") => Some(Asked::ReaderOfPaths),
        _ if words.contains(&"xml") => Some(Asked::ReaderOfXml),
        _ => None,
    }
}

fn bytes_of(words: &[&str]) -> Option<Vec<u8>> {
    let number = |word: &str| word.parse::<u8>().ok();
    match words {
        ["times", times, record @ ..] => Some(bytes_of(record)?.repeat(times.parse().ok()?)),
        ["bytes", bytes @ ..] => bytes.iter().map(|byte| u8::from_str_radix(byte, 16).ok()).collect(),
        ["path", line] => Some(format!("{line}\n").into_bytes()),
        ["text" | "xml", part] => Some(part.as_bytes().to_vec()),
        ["xml"] => Some(Vec::new()),
        ["node", own, parent, label] => Some(vec![1, number(own)?, number(parent)?, label_of(label)?]),
        ["var", variable, node] => Some(vec![2, number(variable)?, number(node)?, 0]),
        [name, rest @ ..] => {
            let kind = KIND_NAMES.iter().position(|kind| kind == name)? as u8 + 1;
            match (kind, rest) {
                (1..=5 | 9, [x, y]) => Some(vec![kind, number(x)?, number(y)?, 0]),
                (6..=7, [x]) => Some(vec![kind, number(x)?, 0, 0]),
                (8, [x, label]) => Some(vec![kind, number(x)?, 0, label_of(label)?]),
                _ => None,
            }
        }
        [] => None,
    }
}

/// A letter stands for its byte.
fn label_of(word: &str) -> Option<u8> {
    match word.as_bytes() {
        [letter] if letter.is_ascii_alphabetic() => Some(*letter),
        _ => word.parse().ok(),
    }
}

/// The question and, where the draft says what is given then, that one too.
fn finish(draft: &Draft) -> Option<Vec<Question>> {
    if draft.session.has_draws() {
        return draft.session.questions(&draft.name);
    }
    let gives = draft.gives.as_ref()?;
    let lent = |least: usize| draft.buffer.unwrap_or(least);
    let first = match (&draft.answer, draft.asked) {
        (Some(answer), _) => Expected::Marker { answer: answer.clone(), verdict: parse_marker(&words_of(gives))? },
        (None, Asked::Solver) => solver_expected(draft, gives)?,
        (None, Asked::ReaderOfPaths) => {
            Expected::Paths { buffer: lent(LEAST_RECORDS_BUFFER), verdict: fill_verdict(gives)? }
        }
        (None, Asked::WriterOfXml) => {
            Expected::XmlWriter { buffer: lent(LEAST_TEXT_BUFFER), verdict: fill_verdict(gives)? }
        }
        (None, Asked::ReaderOfXml) => {
            Expected::XmlReader { buffer: lent(LEAST_NODES_BUFFER), verdict: fill_verdict(gives)? }
        }
    };
    let mut questions = vec![Question { name: draft.name.clone(), file: draft.file.clone(), expected: first }];
    if let Some(then) = &draft.then {
        let (how, expected) = then_expected(draft, then)?;
        questions.push(Question { name: format!("{}, then {how}", draft.name), file: gives.1.clone(), expected });
    }
    Some(questions)
}

/// What was written is put with the shortest buffer to the solver, or to the other of the writer and the reader of XML.
fn then_expected(draft: &Draft, then: &Gives) -> Option<(&'static str, Expected)> {
    match draft.asked {
        Asked::Solver | Asked::ReaderOfPaths => Some(("solved", solver_expected(draft, then)?)),
        Asked::WriterOfXml => {
            Some(("read", Expected::XmlReader { buffer: LEAST_NODES_BUFFER, verdict: fill_verdict(then)? }))
        }
        Asked::ReaderOfXml => {
            Some(("written", Expected::XmlWriter { buffer: LEAST_TEXT_BUFFER, verdict: fill_verdict(then)? }))
        }
    }
}

fn words_of((words, _): &Gives) -> Vec<&str> {
    words.iter().map(String::as_str).collect()
}

fn fill_verdict(gives: &Gives) -> Option<FillVerdict> {
    match words_of(gives).as_slice() {
        ["written"] => Some(FillVerdict::Written(gives.1.clone())),
        words => parse_fill(words),
    }
}

/// The records written are put to the solver with the shortest buffer.
fn solver_expected(draft: &Draft, gives: &Gives) -> Option<Expected> {
    let verdict = match words_of(gives).as_slice() {
        ["tree", count] => SolverVerdict::Tree { count: count.parse().ok()?, answer: gives.1.clone() },
        words => parse_solver(words)?,
    };
    let lent = draft.buffer.filter(|_| draft.asked == Asked::Solver).unwrap_or(LEAST_BUFFER);
    Some(Expected::Solver { buffer: lent, allowance: draft.allowance, verdict })
}
