//! What the programs print (document 01, 'Program `solve`'; the programs that fill a buffer print its bytes), made of a verdict.

use second::constraint::KIND_NAMES;
use second::verdict::{FillVerdict, MarkerVerdict, SolverVerdict};
use second::Refusal;

pub fn of_solve(verdict: &SolverVerdict) -> String {
    match verdict {
        SolverVerdict::Tree { count, answer } => format!("tree {count}\n{}", records(answer)),
        SolverVerdict::None { count } => format!("none {count}\n"),
        SolverVerdict::Spent { count } => format!("spent {count}\n"),
        SolverVerdict::Refused(Refusal(question)) => format!("refused {question}\n"),
    }
}

pub fn of_mark(verdict: &MarkerVerdict) -> String {
    match verdict {
        MarkerVerdict::Met => "met\n".to_string(),
        MarkerVerdict::Unmet { position, kind } => format!("unmet {position} {}\n", KIND_NAMES[*kind as usize - 1]),
        MarkerVerdict::Refused(Refusal(question)) => format!("refused {question}\n"),
    }
}

/// The bytes as they are, or a line of text.
pub fn of_fill(verdict: &FillVerdict) -> Vec<u8> {
    match verdict {
        FillVerdict::Written(bytes) => bytes.clone(),
        FillVerdict::Refused(Refusal(question)) => format!("refused {question}\n").into_bytes(),
    }
}

pub fn records(answer: &[u8]) -> String {
    let line = |record: &[u8]| match record {
        [1, number, parent, label] => format!("node {number} {parent} {label}\n"),
        [2, variable, node, _] => format!("var {variable} {node}\n"),
        _ => panic!("no record of an answer file: {record:?}"),
    };
    answer.chunks(4).map(line).collect()
}

/// The answer file of which `records` would make this text.
pub fn answer_of(text: &str) -> Option<Vec<u8>> {
    let mut answer = Vec::new();
    for line in text.lines() {
        let (word, numbers) = line.split_once(' ')?;
        let numbers: Vec<u8> = numbers.split(' ').map(|number| number.parse().ok()).collect::<Option<_>>()?;
        match (word, numbers.as_slice()) {
            ("node", &[number, parent, label]) => answer.extend([1, number, parent, label]),
            ("var", &[variable, node]) => answer.extend([2, variable, node, 0]),
            _ => return None,
        }
    }
    (records(&answer) == text).then_some(answer)
}
