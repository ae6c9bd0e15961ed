//! Questions to the solver, each with a label 65 to 90 or with labels beside the letters.

use crate::share::{is_full, keep, print, share, Share, ALLOWANCE, LARGEST_COUNT};
use questions::capitals::{apart, crowded_letters, has_both_cases, question_has_capital, relabelled_question};
use questions::document::with_document;
use questions::{free, planted, random_assignment, random_constraint, random_tree, Mix, Random};
use second::closure::Clash;
use second::constraint::{self, Constraint};
use second::search::Trace;
use second::verdict::{hex, SolverVerdict};
use second::{Refusal, LEAST_BUFFER};
use std::collections::BTreeSet;

/// A question, what it was put with, what came of it, and what would if case counted.
struct Asked {
    file: Vec<u8>,
    buffer: usize,
    allowance: u32,
    verdict: SolverVerdict,
    trace: Trace,
    if_case_counted: SolverVerdict,
}

impl Asked {
    fn new(file: &[u8], buffer: usize, allowance: u32) -> Asked {
        let (verdict, trace) = second::solve_traced(file, buffer, allowance);
        let if_case_counted = second::solve(&relabelled_question(file, apart), buffer, allowance);
        Asked { file: file.to_vec(), buffer, allowance, verdict, trace, if_case_counted }
    }

    fn keep_in(&self, shares: &mut [Share<Asked>]) {
        keep(shares, self, format!("solve {} {} {} {}", hex(&self.file), self.buffer, self.allowance, self.verdict));
    }
}

pub fn store() {
    println!("# Made by 'target/second/store solve', that is, by the second solver alone. One question a line:");
    println!("# name, solve, constraint file in hex, bytes lent, allowance; verdict, count or number of the question, answer file in hex.");
    let mut shares = shares();
    let mut random = Random::new(2031);
    while !is_full(&shares) {
        let constraints = if random.one_in(3) { crowded_letters(&mut random) } else { random_question(&mut random) };
        let file = constraint::write(&constraints);
        if random.one_in(4) {
            store_beside(&mut shares, &relabelled_question(&file, beside));
        } else if question_has_capital(&file) {
            store_with_capital(&mut random, &mut shares, &file);
        }
    }
    print(&shares);
}

/// The letters a and b become the bytes beside the letters, of which no two are equal.
fn beside(label: u8) -> u8 {
    match label {
        65 => 64,
        97 => 96,
        66 => 91,
        98 => 123,
        other => other,
    }
}

fn store_beside(shares: &mut [Share<Asked>], file: &[u8]) {
    let asked = Asked::new(file, LEAST_BUFFER, LARGEST_COUNT);
    if !matches!(asked.verdict, SolverVerdict::Spent { .. }) {
        asked.keep_in(shares);
    }
}

fn store_with_capital(random: &mut Random, shares: &mut [Share<Asked>], file: &[u8]) {
    let mut asked = Asked::new(file, LEAST_BUFFER, LARGEST_COUNT);
    let (SolverVerdict::Tree { count, .. } | SolverVerdict::None { count }) = asked.verdict else {
        return;
    };
    // A larger allowance changes nothing. Sometimes it is just enough.
    asked.allowance = if random.one_in(3) { count } else { ALLOWANCE };
    asked.keep_in(shares);
    if count > 0 && random.one_in(4) {
        Asked::new(file, LEAST_BUFFER, random.below(count as usize) as u32).keep_in(shares);
    }
    if random.one_in(4) {
        Asked::new(file, random.pick(&[65, 97, 135]), ALLOWANCE).keep_in(shares);
        Asked::new(&with_label_byte(random, file), LEAST_BUFFER, ALLOWANCE).keep_in(shares);
    }
}

/// With a capital as the label byte of some record, which may be of another kind than 8.
fn with_label_byte(random: &mut Random, file: &[u8]) -> Vec<u8> {
    let mut changed = file.to_vec();
    changed[4 * random.below(file.len() / 4) + 3] = random.pick(&[65, 66, 90]);
    changed
}

fn shares() -> Vec<Share<Asked>> {
    let spent = |asked: &Asked| matches!(asked.verdict, SolverVerdict::Spent { .. });
    let has = |asked: &Asked, label| asked.file.chunks(4).any(|record| record[0] == 8 && record[3] == label);
    vec![
        share("tree-none-if-case-counted-0", 8, |asked| tree(asked, 0, 0) && is_none(&asked.if_case_counted)),
        share("tree-none-if-case-counted", 10, |asked| tree(asked, 1, 99) && is_none(&asked.if_case_counted)),
        share("tree-other-count", 10, |asked| tree(asked, 1, 99) && has_other_count(asked)),
        share("none-other-count", 8, |asked| none(asked, 1, LARGEST_COUNT) && has_other_count(asked)),
        share("spent", 6, move |asked| spent(asked) && !spent_if_case_counted(asked)),
        share("both-cases-on-one", 8, |asked| tree(asked, 0, 9) && has_both(asked, true)),
        share("both-cases-on-two", 8, |asked| tree(asked, 0, 9) && has_both(asked, false)),
        share("both-cases-of-z", 4, move |asked| {
            has(asked, 90) && has(asked, 122) && tree(asked, 0, 99) && is_none(&asked.if_case_counted)
        }),
        share("capital-alone", 8, |asked: &Asked| {
            let has_both_cases = has_both(asked, true) || has_both(asked, false);
            tree(asked, 0, 99) && question_has_capital(&asked.file) && !has_both_cases
        }),
        share("two-labels", 6, |asked: &Asked| clashes_by_labels(asked) && question_has_capital(&asked.file)),
        share("beside-64-and-96", 6, move |asked| has(asked, 64) && has(asked, 96) && hangs_on_beside(asked)),
        share("beside-91-and-123", 6, move |asked| has(asked, 91) && has(asked, 123) && hangs_on_beside(asked)),
        share("beside-tree", 4, move |asked| tree(asked, 0, 99) && (has(asked, 64) || has(asked, 91))),
        share("refused-6", 4, |asked: &Asked| asked.verdict == SolverVerdict::Refused(Refusal(6))),
        share("refused-7", 2, |asked: &Asked| asked.verdict == SolverVerdict::Refused(Refusal(7))),
    ]
}

fn tree(asked: &Asked, least: u32, most: u32) -> bool {
    matches!(asked.verdict, SolverVerdict::Tree { count, .. } if (least..=most).contains(&count))
}

fn none(asked: &Asked, least: u32, most: u32) -> bool {
    matches!(asked.verdict, SolverVerdict::None { count } if (least..=most).contains(&count))
}

fn is_none(verdict: &SolverVerdict) -> bool {
    matches!(verdict, SolverVerdict::None { .. })
}

/// The same verdict, but for the count.
fn has_other_count(asked: &Asked) -> bool {
    use SolverVerdict::{None, Tree};
    match (&asked.verdict, &asked.if_case_counted) {
        (Tree { count, .. }, Tree { count: other, .. }) | (None { count }, None { count: other }) => count != other,
        _ => false,
    }
}

fn spent_if_case_counted(asked: &Asked) -> bool {
    matches!(asked.if_case_counted, SolverVerdict::Spent { .. })
}

fn has_both(asked: &Asked, on_one_variable: bool) -> bool {
    match &asked.verdict {
        SolverVerdict::Tree { answer, .. } => has_both_cases(&asked.file, answer, on_one_variable),
        _ => false,
    }
}

/// None, and a tree if the bytes beside the letters were letters.
fn hangs_on_beside(asked: &Asked) -> bool {
    let as_letters = |label| match label {
        64 => 96,
        91 => 123,
        other => other,
    };
    let file = relabelled_question(&asked.file, as_letters);
    is_none(&asked.verdict) && matches!(second::solve(&file, asked.buffer, asked.allowance), SolverVerdict::Tree { .. })
}

fn clashes_by_labels(asked: &Asked) -> bool {
    none(asked, 0, 0) && asked.trace.clashes == BTreeSet::from([Clash::TwoLabels])
}

fn random_question(random: &mut Random) -> Vec<Constraint> {
    let variables = 2 + random.below(11);
    let records = 1 + random.below(2 * variables);
    let mix = Mix::random(random);
    let nodes = 2 + random.below(variables + 1);
    let tree = random_tree(random, nodes);
    let assignment = random_assignment(random, variables, &tree);
    let mut constraints = planted(random, &tree, &assignment, records, &mix);
    match random.below(4) {
        0 => {}
        1 => {
            for _ in 0..1 + random.below(2) {
                constraints.push(random_constraint(random, variables, &mix));
            }
        }
        2 => with_document(random, &mut constraints, variables, &mix),
        _ => constraints = free(random, variables, records, &mix),
    }
    constraints
}
