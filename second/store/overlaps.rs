//! Questions to the solver in whose search a second alternative of a chain join is entered, most of them with a smaller count than by the
//! rules of before request (ix).

use crate::share::{is_full, keep, print, share, Share, ALLOWANCE, LARGEST_COUNT};
use questions::document::crowded_document;
use questions::overlap::crowded_chain;
use questions::{crowded_path, crowded_siblings, has_root, has_siblings, Random};
use second::constraint::{self, Constraint};
use second::search::{Rules, Trace};
use second::verdict::{hex, SolverVerdict};
use second::LEAST_BUFFER;

/// A question, what came of it, and what did by the rules of before.
struct Asked {
    constraints: Vec<Constraint>,
    verdict: SolverVerdict,
    trace: Trace,
    before: SolverVerdict,
}

pub fn store() {
    println!("# Made by 'target/second/store overlap', that is, by the second solver alone. One question a line:");
    println!("# name, solve, constraint file in hex, bytes lent, allowance; verdict, count or number of the question, answer file in hex.");
    let mut shares = shares();
    let mut random = Random::new(2041);
    while !is_full(&shares) {
        let constraints = match random.below(6) {
            0 => crowded_siblings(&mut random),
            1 => crowded_document(&mut random),
            2 if random.one_in(4) => crowded_path(&mut random),
            _ => crowded_chain(&mut random),
        };
        store_under_allowances(&mut random, &mut shares, &constraints);
    }
    print(&shares);
}

/// Where it ends by both rules: with enough, with one choice too few, and between both counts.
fn store_under_allowances(random: &mut Random, shares: &mut [Share<Asked>], constraints: &[Constraint]) {
    let file = constraint::write(constraints);
    let solve = |rules, allowance| second::solve_by(rules, &file, LEAST_BUFFER, allowance);
    let (now, trace) = solve(Rules::Now, LARGEST_COUNT);
    let before = solve(Rules::BeforeNine, LARGEST_COUNT).0;
    let (Some(is), Some(was)) = (now.unspent_count(), before.unspent_count()) else { return };
    if trace.second_of_chain == 0 {
        return;
    }
    // A larger allowance changes nothing. Sometimes it is just enough.
    let enough = if random.one_in(3) { was } else { ALLOWANCE };
    let between = is + random.below((was - is).max(1) as usize) as u32;
    for allowance in [enough, between, is - 1] {
        let (verdict, trace) = solve(Rules::Now, allowance);
        let before = solve(Rules::BeforeNine, allowance).0;
        let line = format!("solve {} {LEAST_BUFFER} {allowance} {verdict}", hex(&file));
        keep(shares, &Asked { constraints: constraints.to_vec(), verdict, trace, before }, line);
    }
}

fn shares() -> Vec<Share<Asked>> {
    let has_before = |asked: &Asked| has_siblings(&asked.constraints);
    let has_root = |asked: &Asked| has_root(&asked.constraints);
    let none_falls = |asked: &Asked| is_none(asked) && falls(asked);
    vec![
        share("tree-falls", 20, |asked| is_tree(asked) && falls(asked)),
        share("none-falls-with-before", 12, move |asked| none_falls(asked) && has_before(asked)),
        share("none-falls-with-root", 10, move |asked| none_falls(asked) && !has_before(asked) && has_root(asked)),
        share("none-falls-by-parents", 10, move |asked| none_falls(asked) && !has_before(asked) && !has_root(asked)),
        share("spent-becomes-tree", 12, |asked: &Asked| is_spent(&asked.before) && is_tree(asked)),
        share("spent-becomes-none", 12, |asked: &Asked| is_spent(&asked.before) && is_none(asked)),
        share("spent-by-both", 10, |asked: &Asked| is_spent(&asked.verdict) && asked.trace.ended_by_overlap),
        share("tree-stays", 10, |asked| is_tree(asked) && stays(asked) && asked.trace.found_by_second_of_chain()),
        share("none-stays", 6, |asked| is_none(asked) && stays(asked)),
        share("clashes-at-once", 6, |asked| stays(asked) && asked.trace.second_of_chain_crossed()),
    ]
}

fn is_spent(verdict: &SolverVerdict) -> bool {
    matches!(verdict, SolverVerdict::Spent { .. })
}

fn is_tree(asked: &Asked) -> bool {
    matches!(asked.verdict, SolverVerdict::Tree { .. })
}

fn is_none(asked: &Asked) -> bool {
    matches!(asked.verdict, SolverVerdict::None { .. })
}

fn stays(asked: &Asked) -> bool {
    asked.verdict == asked.before
}

/// The count, from a verdict that is no spent.
fn falls(asked: &Asked) -> bool {
    asked.before.unspent_count().is_some_and(|was| asked.verdict.unspent_count() < Some(was))
}
