//! What the solver, the marker, the parts that fill a lent buffer and a draw answer, and the words for it in the stored files and the examples.

use crate::centres::Centre;
use crate::constraint::KIND_NAMES;
use crate::Refusal;
use std::fmt;

#[derive(Clone, PartialEq, Eq, Debug)]
pub enum SolverVerdict {
    Tree { count: u32, answer: Vec<u8> },
    None { count: u32 },
    Spent { count: u32 },
    Refused(Refusal),
}

#[derive(Clone, Copy, PartialEq, Eq, Debug)]
pub enum MarkerVerdict {
    Met,
    Unmet { position: usize, kind: u8 },
    Refused(Refusal),
}

/// Of each part that fills the front of a lent buffer and is no solver: the reader of paths, the writer and the reader of XML.
#[derive(Clone, PartialEq, Eq, Debug)]
pub enum FillVerdict {
    Written(Vec<u8>),
    Refused(Refusal),
}

/// Of a draw: the list after it; a refused one leaves the list as it was.
#[derive(Clone, PartialEq, Eq, Debug)]
pub enum DrawVerdict {
    Granted(Vec<Centre>),
    Refused(Refusal),
}

impl SolverVerdict {
    /// Of a search that was ended by no allowance.
    pub fn unspent_count(&self) -> Option<u32> {
        match self {
            SolverVerdict::Tree { count, .. } | SolverVerdict::None { count } => Some(*count),
            SolverVerdict::Spent { .. } | SolverVerdict::Refused(_) => None,
        }
    }
}

impl fmt::Display for SolverVerdict {
    fn fmt(&self, f: &mut fmt::Formatter) -> fmt::Result {
        match self {
            SolverVerdict::Tree { count, answer } => write!(f, "tree {count} {}", hex(answer)),
            SolverVerdict::None { count } => write!(f, "none {count}"),
            SolverVerdict::Spent { count } => write!(f, "spent {count}"),
            SolverVerdict::Refused(Refusal(question)) => write!(f, "refused {question}"),
        }
    }
}

impl fmt::Display for MarkerVerdict {
    fn fmt(&self, f: &mut fmt::Formatter) -> fmt::Result {
        match self {
            MarkerVerdict::Met => write!(f, "met"),
            MarkerVerdict::Unmet { position, kind } => {
                write!(f, "unmet {position} {}", KIND_NAMES[*kind as usize - 1])
            }
            MarkerVerdict::Refused(Refusal(question)) => write!(f, "refused {question}"),
        }
    }
}

impl fmt::Display for FillVerdict {
    fn fmt(&self, f: &mut fmt::Formatter) -> fmt::Result {
        match self {
            FillVerdict::Written(bytes) => write!(f, "written {}", hex(bytes)),
            FillVerdict::Refused(Refusal(question)) => write!(f, "refused {question}"),
        }
    }
}

impl fmt::Display for DrawVerdict {
    fn fmt(&self, f: &mut fmt::Formatter) -> fmt::Result {
        match self {
            DrawVerdict::Granted(after) => write!(f, "granted {}", list(after)),
            DrawVerdict::Refused(Refusal(question)) => write!(f, "refused {question}"),
        }
    }
}

/// Guarantee, cap and amount drawn of each centre; an empty list is written as a dash, and of a long one the front.
pub fn list(centres: &[Centre]) -> String {
    if centres.is_empty() {
        return "-".to_string();
    }
    let (front, rest) = centres.split_at(centres.len().min(20));
    let record = |&Centre { guarantee, cap, drawn }: &Centre| format!("({guarantee} {cap} {drawn})");
    let more = (!rest.is_empty()).then(|| format!("and {} more", rest.len()));
    front.iter().map(record).chain(more).collect::<Vec<_>>().join(" ")
}

/// Reads what `Display` writes.
pub fn parse_solver(words: &[&str]) -> Option<SolverVerdict> {
    match *words {
        ["tree", count, answer] => Some(SolverVerdict::Tree { count: count.parse().ok()?, answer: unhex(answer)? }),
        ["none", count] => Some(SolverVerdict::None { count: count.parse().ok()? }),
        ["spent", count] => Some(SolverVerdict::Spent { count: count.parse().ok()? }),
        ["refused", question] => Some(SolverVerdict::Refused(Refusal(question.parse().ok()?))),
        _ => None,
    }
}

/// Reads what `Display` writes.
pub fn parse_marker(words: &[&str]) -> Option<MarkerVerdict> {
    match *words {
        ["met"] => Some(MarkerVerdict::Met),
        ["unmet", position, name] => {
            let kind = KIND_NAMES.iter().position(|&kind| kind == name)? as u8 + 1;
            Some(MarkerVerdict::Unmet { position: position.parse().ok()?, kind })
        }
        ["refused", question] => Some(MarkerVerdict::Refused(Refusal(question.parse().ok()?))),
        _ => None,
    }
}

/// Reads what `Display` writes.
pub fn parse_fill(words: &[&str]) -> Option<FillVerdict> {
    match *words {
        ["written", bytes] => Some(FillVerdict::Written(unhex(bytes)?)),
        ["refused", question] => Some(FillVerdict::Refused(Refusal(question.parse().ok()?))),
        _ => None,
    }
}

/// Two digits a byte; an empty file is written as a dash, so that it stays one word.
pub fn hex(bytes: &[u8]) -> String {
    if bytes.is_empty() {
        return "-".to_string();
    }
    bytes.iter().map(|byte| format!("{byte:02x}")).collect()
}

pub fn unhex(word: &str) -> Option<Vec<u8>> {
    if word == "-" {
        return Some(Vec::new());
    }
    if !word.is_ascii() || word.len() % 2 != 0 {
        return None;
    }
    (0..word.len()).step_by(2).map(|at| u8::from_str_radix(&word[at..at + 2], 16).ok()).collect()
}
