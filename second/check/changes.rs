//! What a request changed in the stored questions, in markdown.

use crate::before::{added_node, drawn, name_of, pairs, without_document_node, Request};
use crate::fail;
use second::tree::DOCUMENT_NODE;
use second::verdict::SolverVerdict;
use std::collections::BTreeMap;
use written::Expected;

/// A row for each question that is listed as it was.
pub fn print_listed(request: &Request, lines: &str, path: &str) {
    println!("| {path} | by |\n|---|---|");
    for (now, before) in pairs(lines, path) {
        if let Some(before) = before {
            let why = (request.why)(&before, &now).unwrap_or_else(|how| fail(lines, &how));
            println!("| {} | {why} |", name_of(&now));
        }
    }
    println!();
}

/// Of request (ix): how many of how many, and verdict and count as they were and as they are.
pub fn print_counts(request: &Request, lines: &str, path: &str) {
    let pairs = pairs(lines, path);
    let questions = pairs.iter().filter(|(now, _)| written::stored_question(now).is_some()).count();
    let listed: Vec<(&str, &str)> =
        pairs.iter().filter_map(|(now, before)| before.as_deref().map(|before| (now.as_str(), before))).collect();
    println!(
        "## {path} ({} of {questions})\n\n| question | allowance | before | now |\n|---|---|---|---|",
        listed.len()
    );
    for (now, before) in listed {
        if let Err(how) = (request.why)(before, now) {
            fail(lines, &format!("{}: {how}", name_of(now)));
        }
        let (was, is) = (verdict_of(before), verdict_of(now));
        println!("| {} | {} | {} {} | {} {} |", name_of(now), allowance_of(now), was.0, was.1, is.0, is.1);
    }
    println!();
}

fn allowance_of(line: &str) -> u32 {
    match written::stored_question(line).map(|question| question.expected) {
        Some(Expected::Solver { allowance, .. }) => allowance,
        _ => fail("stored", &format!("not a question to the solver: {line}")),
    }
}

/// Of request (v): how many of each sort, and a row for each whose verdict or count is another.
pub fn print_by_sort(request: &Request, lines: &str, path: &str) {
    let mut sorts: BTreeMap<String, usize> = BTreeMap::new();
    let mut rows = Vec::new();
    for (now, before) in pairs(lines, path) {
        let Some(question) = written::stored_question(&now) else { continue };
        let (sort, row) = match (&question.expected, before) {
            (Expected::Solver { .. }, Some(before)) => {
                let why = (request.why)(&before, &now).unwrap_or_else(|how| fail(lines, &how));
                let (was, is) = (verdict_of(&before), verdict_of(&now));
                let sort = if was.0 == is.0 { "(b) another count" } else { "(c) another verdict" };
                (
                    sort.to_string(),
                    Some(format!("| {} | {} {} | {} {} | {why} |", name_of(&now), was.0, was.1, is.0, is.1)),
                )
            }
            (_, Some(before)) => ((request.why)(&before, &now).unwrap_or_else(|how| fail(lines, &how)), None),
            (Expected::Solver { verdict: SolverVerdict::Tree { answer, .. }, .. }, None) => {
                (sort_of_tree(answer).to_string(), None)
            }
            (_, None) if without_document_node(&now) == now => ("(e) unchanged".to_string(), None),
            (_, None) => ("(e) unchanged but for the 136 bytes lent".to_string(), None),
        };
        *sorts.entry(if sort.starts_with('1') { format!("(d) refused with {sort}") } else { sort }).or_default() += 1;
        rows.extend(row);
    }
    println!("| {path} | questions |\n|---|---|");
    sorts.iter().for_each(|(sort, count)| println!("| {sort} | {count} |"));
    if !rows.is_empty() {
        println!("\n| question | before | now | by |\n|---|---|---|---|");
        rows.iter().for_each(|row| println!("{row}"));
    }
    println!();
}

fn sort_of_tree(answer_file: &[u8]) -> &'static str {
    match added_node(&drawn(answer_file).1) {
        Some(DOCUMENT_NODE) => "(a) a document node in front, else as before",
        Some(_) => "(a) a blank element under the root, else as before",
        None => "(e) the same tree, its root being the document node",
    }
}

/// The word and the count of a solver's verdict.
fn verdict_of(line: &str) -> (String, u32) {
    match written::stored_question(line).map(|question| question.expected) {
        Some(Expected::Solver { verdict, .. }) => match verdict {
            SolverVerdict::Tree { count, .. } => ("tree".to_string(), count),
            SolverVerdict::None { count } => ("none".to_string(), count),
            SolverVerdict::Spent { count } => ("spent".to_string(), count),
            SolverVerdict::Refused(refusal) => ("refused".to_string(), refusal.0 as u32),
        },
        _ => fail("stored", &format!("not a question to the solver: {line}")),
    }
}
