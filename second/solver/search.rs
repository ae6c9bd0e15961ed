//! Joins, choices and the allowance (source 000, section 3.4, in document 01's fixed order; document 02, request (iii), for the third join,
//! request (v), for the fourth, and request (ix), for the chain join's second alternative).

use crate::closure::{same, settle_constraints, Clash, Fact, Settled, Settling};
use crate::constraint::{number_of_variables, Constraint, Variable};
use std::collections::BTreeSet;

#[derive(Debug)]
pub enum Outcome {
    /// The first settled set reached with neither clash nor join.
    Solved(Settled),
    None,
    Spent,
}

#[derive(Clone, Copy, PartialEq, Eq, Debug)]
pub enum Join {
    Parent {
        x: Variable,
        y: Variable,
        z: Variable,
    },
    Chain {
        x: Variable,
        y: Variable,
    },
    Sibling {
        a: Variable,
        x: Variable,
        y: Variable,
    },
    /// r is the document node and y the element next under it: w is at or below y, or on r.
    Document {
        r: Variable,
        y: Variable,
        w: Variable,
    },
}

/// Those of before request (ix) are kept, since it says how the answers by both compare.
#[derive(Clone, Copy, PartialEq, Eq, Debug)]
pub enum Rules {
    BeforeNine,
    Now,
}

impl Join {
    /// In the order in which they are entered.
    fn alternatives(self, rules: Rules) -> [Vec<Fact>; 2] {
        match self {
            Join::Parent { x, y, z } => [vec![Fact::Below(x, y)], same(x, z)],
            Join::Chain { x, y } => match rules {
                Rules::BeforeNine => [vec![Fact::Below(x, y)], vec![Fact::Below(y, x)]],
                // x and y on one node are the first one's.
                Rules::Now => [vec![Fact::Below(x, y)], vec![Fact::Below(y, x), Fact::Differ(x, y)]],
            },
            Join::Sibling { a, x, y } => [vec![Fact::Below(a, x)], same(a, y)],
            Join::Document { r, y, w } => [vec![Fact::Below(y, w)], same(w, r)],
        }
    }
}

/// Parent joins, then chain joins, each by the smallest z, then x, then y; then sibling joins, the third kind, by y, then a, then x; then
/// document joins, the fourth and last kind, by r, then y, then w.
pub fn first_join(settled: &Settled) -> Option<Join> {
    first_triple(settled, |z, x, y| {
        settled.holds(Fact::Child(y, z)) && settled.below(x, z) && !settled.same(x, z) && !settled.below(x, y)
    })
    .map(|(z, x, y)| Join::Parent { x, y, z })
    .or_else(|| {
        first_triple(settled, |z, x, y| {
            x < y && settled.below(x, z) && settled.below(y, z) && !settled.below(x, y) && !settled.below(y, x)
        })
        .map(|(_, x, y)| Join::Chain { x, y })
    })
    .or_else(|| {
        first_triple(settled, |y, a, x| {
            let are_siblings = settled.before(x, y) || settled.before(y, x);
            are_siblings && settled.below(a, y) && !settled.same(a, y) && !settled.below(a, x)
        })
        .map(|(y, a, x)| Join::Sibling { a, x, y })
    })
    .or_else(|| {
        first_triple(settled, |r, y, w| {
            settled.is_root(r) && settled.holds(Fact::Child(r, y)) && !settled.same(w, r) && !settled.below(y, w)
        })
        .map(|(r, y, w)| Join::Document { r, y, w })
    })
}

/// The first by its first variable, then by its second, then by its third.
fn first_triple(
    settled: &Settled,
    is_join: impl Fn(Variable, Variable, Variable) -> bool,
) -> Option<(Variable, Variable, Variable)> {
    for &first in &settled.variables {
        for &second in &settled.variables {
            for &third in &settled.variables {
                if is_join(first, second, third) {
                    return Some((first, second, third));
                }
            }
        }
    }
    None
}

/// What a search did, for those who ask whether all of it comes up.
#[derive(Default, Debug)]
pub struct Trace {
    /// What ended its lines.
    pub clashes: BTreeSet<Clash>,
    /// Were two children of a root made the same, by their own rule alone?
    pub made_one_child: bool,
    /// Was a fourth join come to, and how many alternatives of such joins were entered?
    pub came_to_fourth_join: bool,
    pub of_fourth_joins: u32,
    /// How many second alternatives of chain joins were entered, and what ended those of them that clashed at once?
    pub second_of_chain: u32,
    pub second_of_chain_clashed: BTreeSet<Clash>,
    /// Did a line end that would have gone on by the rules of before request (ix)?
    pub ended_by_overlap: bool,
    /// The alternatives of the line that ended in a tree, the outermost first: the join, and 0 or 1.
    pub line: Vec<(Join, usize)>,
}

impl Trace {
    /// Did the line that ended in a tree enter a second alternative of a chain join?
    pub fn found_by_second_of_chain(&self) -> bool {
        self.line.iter().any(is_second_of_chain)
    }

    /// Did a second alternative of a chain join clash at once, before with below?
    pub fn second_of_chain_crossed(&self) -> bool {
        let clashed = &self.second_of_chain_clashed;
        clashed.contains(&Clash::LaterSiblingBelow) || clashed.contains(&Clash::EarlierSiblingBelow)
    }
}

struct Search<'a> {
    constraints: &'a [Constraint],
    rules: Rules,
    allowance: u32,
    count: u32,
    /// The alternatives of the line that is searched, the outermost first.
    line: Vec<(Join, usize)>,
    trace: Trace,
}

/// The outcome, the count of choices, and how it came about.
pub fn search(constraints: &[Constraint], allowance: u32, rules: Rules) -> (Outcome, u32, Trace) {
    let variables = number_of_variables(constraints);
    let mut search = Search { constraints, rules, allowance, count: 0, line: Vec::new(), trace: Trace::default() };
    let outcome = search.explore(settle_constraints(constraints, variables, []));
    if matches!(outcome, Outcome::Solved(_)) {
        search.trace.line = search.line;
    }
    (outcome, search.count, search.trace)
}

impl Search<'_> {
    /// Searches one line to its end.
    fn explore(&mut self, settling: Settling) -> Outcome {
        self.trace.made_one_child |= settling.made_one_child;
        let settled = match settling.result {
            Ok(settled) => settled,
            Err(clash) => {
                self.note_clash(clash);
                return Outcome::None;
            }
        };
        let Some(join) = first_join(&settled) else {
            return Outcome::Solved(settled);
        };
        let is_fourth = matches!(join, Join::Document { .. });
        self.trace.came_to_fourth_join |= is_fourth;
        for (at, alternative) in join.alternatives(self.rules).iter().enumerate() {
            if self.count == self.allowance {
                return Outcome::Spent;
            }
            self.count += 1;
            self.trace.of_fourth_joins += is_fourth as u32;
            self.trace.second_of_chain += is_second_of_chain(&(join, at)) as u32;
            self.line.push((join, at));
            match self.explore(settled.with(alternative)) {
                Outcome::None => drop(self.line.pop()),
                solved_or_spent => return solved_or_spent,
            }
        }
        Outcome::None
    }

    fn note_clash(&mut self, clash: Clash) {
        self.trace.clashes.insert(clash);
        if self.line.last().is_some_and(is_second_of_chain) {
            self.trace.second_of_chain_clashed.insert(clash);
        }
        let can_be_overlap = clash == Clash::DiffersFromItself && self.line.iter().any(is_second_of_chain);
        if self.rules == Rules::Now && can_be_overlap && !self.trace.ended_by_overlap {
            self.trace.ended_by_overlap = self.line_before_nine().result.is_ok();
        }
    }

    /// The same line by the rules of before.
    fn line_before_nine(&self) -> Settling {
        let entered = |&(join, at): &(Join, usize)| join.alternatives(Rules::BeforeNine)[at].clone();
        let more = self.line.iter().flat_map(entered);
        settle_constraints(self.constraints, number_of_variables(self.constraints), more)
    }
}

fn is_second_of_chain(entered: &(Join, usize)) -> bool {
    matches!(entered, (Join::Chain { .. }, 1))
}
