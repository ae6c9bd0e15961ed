//! A second solver, marker, reader of paths, writer and reader of XML, and draw by centres, written from documents 01 and 02 and the source
//! papers and from nothing else, to be held against the proved ones.
//! Facts are kept in sets and closed by repeating the rules; nothing here is clever, so that each line can be read beside its sentence.

pub mod answer;
pub mod brute;
pub mod centres;
pub mod closure;
pub mod constraint;
pub mod label;
pub mod one_pass;
pub mod path;
pub mod readoff;
pub mod search;
pub mod select;
pub mod translate;
pub mod tree;
pub mod verdict;
pub mod xml;

use centres::Centre;
use search::{Outcome, Rules, Trace};
use verdict::{DrawVerdict, FillVerdict, MarkerVerdict, SolverVerdict};

/// The number of the question that a file, buffer or draw fails.
#[derive(Clone, Copy, PartialEq, Eq, Debug)]
pub struct Refusal(pub u8);

/// The shortest answer buffer that question 7 lets pass: 18 node records and 16 place records.
pub const LEAST_BUFFER: usize = 136;
/// The shortest buffer that question 7 lets pass for the records of paths.
pub const LEAST_RECORDS_BUFFER: usize = 1024;
/// The shortest buffers that question 17 lets pass, for the text of a tree and for its node records.
pub const LEAST_TEXT_BUFFER: usize = 512;
pub const LEAST_NODES_BUFFER: usize = 256;

pub fn solve(constraint_file: &[u8], buffer_length: usize, allowance: u32) -> SolverVerdict {
    solve_traced(constraint_file, buffer_length, allowance).0
}

/// The verdict, and how the search came to it; a refused file is not searched.
pub fn solve_traced(constraint_file: &[u8], buffer_length: usize, allowance: u32) -> (SolverVerdict, Trace) {
    solve_by(Rules::Now, constraint_file, buffer_length, allowance)
}

pub fn solve_by(rules: Rules, constraint_file: &[u8], buffer_length: usize, allowance: u32) -> (SolverVerdict, Trace) {
    let refused = |refusal| (SolverVerdict::Refused(refusal), Trace::default());
    let constraints = match constraint::read(constraint_file) {
        Ok(constraints) => constraints,
        Err(refusal) => return refused(refusal),
    };
    if buffer_length < LEAST_BUFFER {
        return refused(Refusal(7));
    }
    let (outcome, count, trace) = search::search(&constraints, allowance, rules);
    let verdict = match outcome {
        Outcome::None => SolverVerdict::None { count },
        Outcome::Spent => SolverVerdict::Spent { count },
        Outcome::Solved(settled) => {
            let (tree, assignment) = readoff::read_off(&settled);
            SolverVerdict::Tree { count, answer: answer::write(&tree, &assignment) }
        }
    };
    (verdict, trace)
}

pub fn mark(constraint_file: &[u8], answer_file: &[u8]) -> MarkerVerdict {
    let constraints = match constraint::read(constraint_file) {
        Ok(constraints) => constraints,
        Err(refusal) => return MarkerVerdict::Refused(refusal),
    };
    let variables = constraint::number_of_variables(&constraints);
    let (tree, assignment) = match answer::read(answer_file, variables) {
        Ok(read) => read,
        Err(refusal) => return MarkerVerdict::Refused(refusal),
    };
    match tree::first_unmet(&tree, &assignment, &constraints) {
        None => MarkerVerdict::Met,
        Some(position) => MarkerVerdict::Unmet { position, kind: constraints[position].kind() },
    }
}

/// Question 7, then 13, then 14.
pub fn paths(text: &[u8], buffer_length: usize) -> FillVerdict {
    if buffer_length < LEAST_RECORDS_BUFFER {
        return FillVerdict::Refused(Refusal(7));
    }
    let Some(lines) = path::read(text) else {
        return FillVerdict::Refused(Refusal(13));
    };
    let translation = translate::translate(&lines);
    if translation.variables > translate::MOST_VARIABLES {
        return FillVerdict::Refused(Refusal(14));
    }
    FillVerdict::Written(constraint::write(&translation.records))
}

/// Questions 8 to 11, then 17, then 15.
pub fn xml_write(node_records: &[u8], buffer_length: usize) -> FillVerdict {
    let tree = match answer::read_nodes(node_records) {
        Ok(tree) => tree,
        Err(refusal) => return FillVerdict::Refused(refusal),
    };
    if buffer_length < LEAST_TEXT_BUFFER {
        return FillVerdict::Refused(Refusal(17));
    }
    match xml::write(&tree) {
        Some(text) => FillVerdict::Written(text),
        None => FillVerdict::Refused(Refusal(15)),
    }
}

/// Question 17, then 16.
pub fn xml_read(text: &[u8], buffer_length: usize) -> FillVerdict {
    if buffer_length < LEAST_NODES_BUFFER {
        return FillVerdict::Refused(Refusal(17));
    }
    match xml::read(text) {
        Some(tree) => FillVerdict::Written(answer::write_nodes(&tree)),
        None => FillVerdict::Refused(Refusal(16)),
    }
}

/// Question 18, then 19, then 20.
pub fn draw(centres: &[Centre], total: u32, centre: usize, amount: u32) -> DrawVerdict {
    match centres::draw(centres, total, centre, amount) {
        Ok(after) => DrawVerdict::Granted(after),
        Err(refusal) => DrawVerdict::Refused(refusal),
    }
}
