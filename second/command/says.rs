//! What the command prints and its exit status, made of what the second side tells ("The command" in docs/FORMAT.md).

use crate::drawing;
use crate::held::Refused;
use crate::judge::{Converted, Marked};
use crate::lines::{as_letter, plain, Side};
use printed as text;
use second::constraint::KIND_NAMES;
use second::verdict::SolverVerdict;

/// What a run is held to.
pub struct Expected {
    pub output: Vec<u8>,
    pub errors: Vec<u8>,
    pub status: i32,
}

const REFUSED: i32 = 3;
pub const UNREAD: i32 = 4;

/// "In names a control character is written as `\` and three octal digits; standard input is `standard input`."
pub fn name(file: &str) -> String {
    if file == "-" {
        return "standard input".to_string();
    }
    let shown = |letter: char| match letter {
        '\0'..='\x1f' | '\x7f' => format!("\\{:03o}", letter as u32),
        _ => letter.to_string(),
    };
    file.chars().map(shown).collect()
}

/// `refused NUMBER: WORDS`, without the number where there is none.
fn refused_words(refused: &Refused) -> String {
    match refused.number {
        Some(number) => format!("refused {number}: {}", refused.words),
        None => format!("refused: {}", refused.words),
    }
}

/// What `solve`, `paths` and `xml` say on standard error.
pub fn refused(file: &str, refused: &Refused) -> Expected {
    let place = refused.place.as_ref().map(|place| format!(" ({place})")).unwrap_or_default();
    let line = format!("cudreth: {}: {}{place}\n", name(file), refused_words(refused));
    Expected { output: Vec::new(), errors: line.into_bytes(), status: REFUSED }
}

/// The line of an answer, and the status that it asks for.
pub fn mark(question: &str, answer: &str, marked: &Marked) -> (String, i32) {
    let (question, answer) = (name(question), name(answer));
    match marked {
        Marked::Met => (format!("{answer}: met\n"), 0),
        Marked::Unmet { position, record, line } => {
            let kind = KIND_NAMES[record[0] as usize - 1];
            let shown = plain(Side::Question, record, as_letter);
            let place = line.map(|line| format!(" ({question}, line {line})")).unwrap_or_default();
            (format!("{answer}: unmet {position} {kind}: {}{place}\n", shown.trim_end()), 1)
        }
        Marked::RefusedQuestion(refused) => {
            let place = refused.place.as_ref().map(|place| format!(", {place}")).unwrap_or_default();
            (format!("{answer}: {} ({question}{place})\n", refused_words(refused)), REFUSED)
        }
        Marked::RefusedAnswer(refused) => {
            let place = refused.place.as_ref().map(|place| format!(" ({place})")).unwrap_or_default();
            (format!("{answer}: {}{place}\n", refused_words(refused)), REFUSED)
        }
    }
}

/// A file that cannot be read, the question or the answer, since it is not there.
pub fn unread(answer: &str, absent: &str) -> (String, i32) {
    (format!("{}: unread: {}: No such file or directory\n", name(answer), name(absent)), UNREAD)
}

/// The lines of several answers, with the highest status.
pub fn marks<'a>(marks: impl Iterator<Item = (&'a str, i32)>) -> Expected {
    let mut expected = written(Vec::new());
    let mut unread = 0;
    for (line, status) in marks {
        expected.output.extend(line.bytes());
        expected.status = expected.status.max(status);
        unread += usize::from(status == UNREAD);
    }
    expected.errors = match unread {
        0 => Vec::new(),
        1 => b"cudreth: 1 pair could not be read\n".to_vec(),
        pairs => format!("cudreth: {pairs} pairs could not be read\n").into_bytes(),
    };
    expected
}

/// How `solve` prints a tree.
#[derive(Clone, Copy, PartialEq, Eq, Debug)]
pub enum Printing {
    Text,
    Drawing,
    Bytes,
}

pub fn solve(verdict: &SolverVerdict, printing: Printing) -> Expected {
    let line = text::of_solve(verdict).into_bytes();
    let status = match verdict {
        SolverVerdict::Tree { .. } => 0,
        SolverVerdict::None { .. } => 1,
        SolverVerdict::Spent { .. } => 2,
        SolverVerdict::Refused(_) => panic!("a refusal has a place"),
    };
    match (verdict, printing) {
        (SolverVerdict::Tree { answer, .. }, Printing::Bytes) => written(answer.clone()),
        (SolverVerdict::Tree { count, answer }, Printing::Drawing) => {
            written(format!("tree {count}\n{}", drawing::of(answer)).into_bytes())
        }
        (_, Printing::Bytes) => Expected { output: Vec::new(), errors: line, status },
        _ => Expected { output: line, errors: Vec::new(), status },
    }
}

pub fn written(output: Vec<u8>) -> Expected {
    Expected { output, errors: Vec::new(), status: 0 }
}

/// Records of paths, as text or as bytes.
pub fn paths(records: &[u8], bytes: bool) -> Expected {
    match bytes {
        true => written(records.to_vec()),
        false => written(plain(Side::Question, records, as_letter).into_bytes()),
    }
}

/// "`xml` prints `node` lines as `solve` does, or XML with a newline."
pub fn xml(converted: &Converted, bytes: bool) -> Expected {
    match converted {
        Converted::Xml(xml) => written([&xml[..], b"\n"].concat()),
        Converted::Nodes(nodes) if bytes => written(nodes.clone()),
        Converted::Nodes(nodes) => written(text::records(nodes).into_bytes()),
    }
}
