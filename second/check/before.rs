//! A stored file as it was before a request that changed answers in it. What the request does to every answer alike is undone here; the
//! questions of which it changed more are listed as they were, and each of these must have changed by a rule of the request.

use crate::changes::{print_by_sort, print_counts, print_listed};
use crate::{fail, text_of};
use second::search::{Rules, Trace};
use second::tree::{Assignment, Node, Tree, DOCUMENT_NODE, OUTERMOST_ELEMENT};
use second::verdict::{hex, MarkerVerdict, SolverVerdict};
use second::{answer, Refusal, LEAST_BUFFER};
use std::collections::BTreeMap;
use written::{Expected, Question};

/// A request that changed stored answers.
pub struct Request {
    /// The line before the request, if the request did to it no more than to every line.
    undone: fn(&str) -> String,
    /// Why a line that is listed as it was may have changed to what it is.
    pub why: fn(&str, &str) -> Result<String, String>,
    /// Prints what it changed.
    pub changes: fn(&Request, &str, &str),
}

pub const REQUESTS: [(&str, Request); 4] = [
    ("iii", Request { undone: str::to_string, why: why_by_kind_9, changes: print_listed }),
    ("v", Request { undone: without_document_node, why: why_by_document_node, changes: print_by_sort }),
    ("vi", Request { undone: str::to_string, why: why_by_capitals, changes: print_listed }),
    ("ix", Request { undone: str::to_string, why: why_by_overlap, changes: print_counts }),
];

/// `lines` are the questions listed, as they were; each stands in the file under its name.
pub fn print(request: &Request, lines: &str, path: &str) {
    for (now, before) in pairs(lines, path) {
        if let Some(Err(how)) = before.as_ref().map(|before| (request.why)(before, &now)) {
            fail(lines, &format!("{}: {how}", name_of(&now)));
        }
        println!("{}", before.unwrap_or_else(|| (request.undone)(&now)));
    }
}

/// The lines of the file, each with what is listed under its name.
pub fn pairs(lines: &str, path: &str) -> Vec<(String, Option<String>)> {
    let listed = text_of(lines);
    let listed = listed.lines().filter(|line| !line.starts_with('#'));
    let mut left: BTreeMap<&str, &str> = listed.map(|line| (name_of(line), line)).collect();
    let pair = |now: &str| (now.to_string(), left.remove(name_of(now)).map(str::to_string));
    let pairs = text_of(path).lines().map(pair).collect();
    if let Some(name) = left.keys().next() {
        fail(lines, &format!("{name}: no such question in {path}"));
    }
    pairs
}

pub fn name_of(line: &str) -> &str {
    line.split(' ').next().unwrap_or(line)
}

/// Question 3 refused a record of kind 9, and lets it pass now; all else of the question is as it was.
fn why_by_kind_9(before: &str, now: &str) -> Result<String, String> {
    let asked = before.strip_suffix("refused 3").ok_or("was not refused with 3")?;
    let question = written::stored_question(before).ok_or("is no stored question")?;
    if !question.file.chunks(4).any(|record| record[0] == 9) {
        return Err("has no record of kind 9".to_string());
    }
    match now.strip_prefix(asked) {
        None => Err("is another question now".to_string()),
        Some("refused 3") => Err("has not changed".to_string()),
        Some(_) => Ok("kind 9 passes question 3".to_string()),
    }
}

/// A tree carried labels 65 to 90 as the records write them, and carries their small letters now; all else of the question is as it was.
fn why_by_capitals(before: &str, now: &str) -> Result<String, String> {
    let Some(Question { name, file, expected: Expected::Solver { buffer, allowance, verdict } }) =
        written::stored_question(before)
    else {
        return Err("was no question to the solver".to_string());
    };
    if now == before {
        return Err("has not changed".to_string());
    }
    let is_capital = |record: &[u8]| record[0] == 8 && (65..=90).contains(&record[3]);
    if !file.chunks(4).any(is_capital) {
        return Err("has no label 65 to 90".to_string());
    }
    let SolverVerdict::Tree { count, mut answer } = verdict else {
        return Err("was no tree".to_string());
    };
    let mut changed = Vec::new();
    for node in answer.chunks_mut(4).filter(|record| record[0] == 1 && (65..=90).contains(&record[3])) {
        changed.push(format!("node {}: {}, now {}", node[1], node[3], node[3] + 32));
        node[3] += 32;
    }
    let verdict = SolverVerdict::Tree { count, answer };
    if now != format!("{name} solve {} {buffer} {allowance} {verdict}", hex(&file)) {
        return Err("has changed by more than the case of labels".to_string());
    }
    Ok(changed.join("; "))
}

/// A second alternative of a chain join was entered, so that the count can have fallen, or spent have become a verdict; all else of the
/// question is as it was.
fn why_by_overlap(before: &str, now: &str) -> Result<String, String> {
    if now == before {
        return Err("has not changed".to_string());
    }
    let Some(Question { file, expected: Expected::Solver { buffer, allowance, verdict: was }, .. }) =
        written::stored_question(before)
    else {
        return Err("was no question to the solver".to_string());
    };
    let asked = before.strip_suffix(&was.to_string()).ok_or("is not written as verdicts are")?;
    let is = match (now.strip_prefix(asked), written::stored_question(now).map(|question| question.expected)) {
        (Some(_), Some(Expected::Solver { verdict, .. })) => verdict,
        _ => return Err("is another question now".to_string()),
    };
    let (said, trace) = second::solve_by(Rules::BeforeNine, &file, buffer, allowance);
    if said != was {
        return Err(format!("was {said} by the rules of before"));
    }
    if trace.second_of_chain == 0 {
        return Err("no second alternative of a chain join was entered".to_string());
    }
    let unspent = second::solve_by(Rules::BeforeNine, &file, buffer, u32::MAX).0;
    if !is_but_for_a_smaller_count(&is, &unspent) {
        return Err("has changed by more than its count, or than spent to the verdict it would have been".to_string());
    }
    Ok(format!("second alternatives of chain joins, {}", choices(trace.second_of_chain)))
}

fn is_but_for_a_smaller_count(now: &SolverVerdict, before: &SolverVerdict) -> bool {
    use SolverVerdict::{None, Tree};
    match (now, before) {
        (Tree { count, answer }, Tree { count: was, answer: tree }) => count < was && answer == tree,
        (None { count }, None { count: was }) => count < was,
        _ => false,
    }
}

/// The shortest buffer was 132 bytes, and a tree had no nodes but those of groups and a blank one over several.
const LEAST_BUFFER_BEFORE: usize = 132;

/// The question with the shortest buffer of then, and its tree without the document node or the element that was added.
pub fn without_document_node(line: &str) -> String {
    let Some(Question { name, file, expected: Expected::Solver { buffer, allowance, verdict } }) =
        written::stored_question(line)
    else {
        return line.to_string();
    };
    let buffer = if buffer == LEAST_BUFFER { LEAST_BUFFER_BEFORE } else { buffer };
    let verdict = match verdict {
        SolverVerdict::Tree { count, answer } => SolverVerdict::Tree { count, answer: without_added_node(&answer) },
        other => other,
    };
    format!("{name} solve {} {buffer} {allowance} {verdict}", hex(&file))
}

/// The node of the tree that request (v) added, if it has one. Nodes without a variable are those that were added; where node 0 is one of
/// them, a blank element over several groups was there before.
pub fn added_node(assignment: &Assignment) -> Option<Node> {
    let nodes = [DOCUMENT_NODE, OUTERMOST_ELEMENT];
    nodes.into_iter().find(|&node| assignment.lowest_variable_on(node).is_none())
}

/// The children of the node move up to its parent, and all later nodes by one number.
fn without_added_node(answer_file: &[u8]) -> Vec<u8> {
    let (tree, assignment) = drawn(answer_file);
    let Some(added) = added_node(&assignment) else {
        return answer_file.to_vec();
    };
    let number = |node: Node| Node(if node > added { node.0 - 1 } else { node.0 });
    let kept: Vec<Node> = (0..tree.parents.len()).map(Node).filter(|&node| node != added).collect();
    let parent = |node: Node| match tree.parent(node) {
        Some(parent) if parent == added => tree.parent(added).map(number),
        parent => parent.map(number),
    };
    let before = Tree {
        parents: kept.iter().map(|&node| parent(node)).collect(),
        labels: kept.iter().map(|&node| tree.label(node)).collect(),
    };
    answer::write(&before, &Assignment(assignment.0.iter().map(|&node| number(node)).collect()))
}

pub fn drawn(answer_file: &[u8]) -> (Tree, Assignment) {
    let variables = answer_file.chunks(4).filter(|record| record[0] == 2).count();
    answer::read(answer_file, variables).unwrap_or_else(|_| fail("stored", "a tree that is refused"))
}

/// The same question, put to the solver with the shortest buffer of each time or to the marker; its answer has changed by more than the
/// nodes that were added, and a rule of the request is at work in it.
fn why_by_document_node(before: &str, now: &str) -> Result<String, String> {
    if without_document_node(now) == before {
        return Err("has changed by no more than every tree, or not at all".to_string());
    }
    let read = |line| written::stored_question(line).ok_or("is no stored question");
    let (before, now) = (read(before)?, read(now)?);
    match (&before.expected, &now.expected) {
        (
            Expected::Solver { buffer: LEAST_BUFFER_BEFORE, allowance: allowed, .. },
            Expected::Solver { buffer: LEAST_BUFFER, allowance, .. },
        ) if before.file == now.file && allowed == allowance => {
            let (_, trace) = second::solve_by(Rules::BeforeNine, &now.file, LEAST_BUFFER, *allowance);
            Some(rules_at_work(&trace))
                .filter(|rules| !rules.is_empty())
                .ok_or("no rule of the request is at work".into())
        }
        (Expected::Marker { answer: drawn, verdict: marked }, Expected::Marker { answer, verdict })
            if before.file == now.file && drawn == answer =>
        {
            why_refused(marked, answer, verdict).ok_or("is not refused by what questions 10 and 11 ask now".to_string())
        }
        _ => Err("is another question now".to_string()),
    }
}

/// In a few words; empty if none is.
fn rules_at_work(trace: &Trace) -> String {
    use second::closure::Clash::{LabelOnDocumentNode, LeafOnDocumentNode};
    let clashes = |clash| trace.clashes.contains(&clash);
    let rules = [
        (clashes(LeafOnDocumentNode), "a leaf on the document node".to_string()),
        (clashes(LabelOnDocumentNode), "a label on the document node".to_string()),
        (trace.made_one_child, "two children of the document node are the same".to_string()),
        (trace.came_to_fourth_join, format!("the fourth join, {}", choices(trace.of_fourth_joins))),
    ];
    let at_work: Vec<String> = rules.into_iter().filter(|(is_so, _)| *is_so).map(|(_, rule)| rule).collect();
    at_work.join("; ")
}

fn choices(count: u32) -> String {
    format!("{count} choice{}", if count == 1 { "" } else { "s" })
}

/// Formerly no question up to 11 refused it; now 10 does, since it has one node, or 11, since node 0 has a label or a second child.
fn why_refused(before: &MarkerVerdict, answer_file: &[u8], now: &MarkerVerdict) -> Option<String> {
    if matches!(before, MarkerVerdict::Refused(Refusal(..=11))) {
        return None;
    }
    let nodes: Vec<&[u8]> = answer_file.chunks(4).take_while(|record| record[0] == 1).collect();
    let has_second_child = nodes.iter().skip(2).any(|record| record[2] == 0);
    match now {
        MarkerVerdict::Refused(Refusal(10)) => (nodes.len() == 1).then(|| "10: one node".to_string()),
        MarkerVerdict::Refused(Refusal(11)) => match (nodes[0][3] != 0, has_second_child) {
            (true, false) => Some("11: node 0 has a label".to_string()),
            (false, true) => Some("11: node 0 has a second child".to_string()),
            (true, true) => Some("11: node 0 has a label and a second child".to_string()),
            (false, false) => None,
        },
        _ => None,
    }
}
