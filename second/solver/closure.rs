//! Facts and the settled set: the least set that holds the given facts and is closed under the rules (source 000, rules 1 to 9, and
//! document 02, request (iii), for before, request (v), for the document node, and request (vi), for labels that are equal).
//! A round draws every conclusion of every rule from the facts held; rounds are repeated until one brings nothing new.

use crate::constraint::{Constraint, Variable};
use crate::label::are_equal;
use std::collections::BTreeSet;

#[derive(Clone, Copy, PartialEq, Eq, PartialOrd, Ord, Debug)]
pub enum Fact {
    Child(Variable, Variable),
    Below(Variable, Variable),
    Differ(Variable, Variable),
    Before(Variable, Variable),
    Root(Variable),
    Leaf(Variable),
    Label(Variable, u8),
}

use Fact::*;

/// Merging is said as below both ways.
pub fn same(x: Variable, y: Variable) -> Vec<Fact> {
    vec![Below(x, y), Below(y, x)]
}

pub fn facts_of(constraint: Constraint) -> Vec<Fact> {
    match constraint {
        Constraint::Child(x, y) => vec![Child(x, y)],
        Constraint::Below(x, y) => vec![Below(x, y)],
        Constraint::StrictlyBelow(x, y) => vec![Below(x, y), Differ(x, y)],
        Constraint::Same(x, y) => same(x, y),
        Constraint::Differ(x, y) => vec![Differ(x, y)],
        Constraint::Root(x) => vec![Root(x)],
        Constraint::Leaf(x) => vec![Leaf(x)],
        Constraint::Label(x, label) => vec![Label(x, label)],
        Constraint::Before(x, y) => vec![Before(x, y)],
    }
}

/// Why no tree meets a set of facts.
#[derive(Clone, Copy, PartialEq, Eq, PartialOrd, Ord, Debug)]
pub enum Clash {
    /// differ(x,x), rule 8.
    DiffersFromItself,
    /// Rule 9, of labels that differ by more than case.
    TwoLabels,
    /// before(x,y) with below(x,y).
    LaterSiblingBelow,
    /// before(x,y) with below(y,x).
    EarlierSiblingBelow,
    /// The document node has a child.
    LeafOnDocumentNode,
    /// The document node has no name.
    LabelOnDocumentNode,
}

/// A settled set without a clash.
#[derive(Clone, Debug)]
pub struct Settled {
    pub variables: Vec<Variable>,
    facts: BTreeSet<Fact>,
}

impl Settled {
    pub fn holds(&self, fact: Fact) -> bool {
        self.facts.contains(&fact)
    }

    pub fn below(&self, x: Variable, y: Variable) -> bool {
        self.holds(Below(x, y))
    }

    pub fn same(&self, x: Variable, y: Variable) -> bool {
        self.below(x, y) && self.below(y, x)
    }

    pub fn before(&self, x: Variable, y: Variable) -> bool {
        self.holds(Before(x, y))
    }

    pub fn is_root(&self, x: Variable) -> bool {
        self.holds(Root(x))
    }

    /// As some record writes it; all that x has are equal.
    pub fn label(&self, x: Variable) -> Option<u8> {
        labels_of(&self.facts, x).next()
    }

    /// The settled set of these facts and some more, or its clash.
    pub fn with(&self, more: &[Fact]) -> Settling {
        let mut facts = self.facts.clone();
        facts.extend(more);
        settle(self.variables.clone(), facts)
    }
}

pub struct Settling {
    pub result: Result<Settled, Clash>,
    /// Were two children of a root made the same, for no other reason?
    pub made_one_child: bool,
}

/// The settled set of the constraints over variables 0 to n−1 and of some more facts, or its clash.
pub fn settle_constraints(
    constraints: &[Constraint],
    variables: usize,
    more: impl IntoIterator<Item = Fact>,
) -> Settling {
    let variables = (0..variables as u8).map(Variable).collect();
    let facts = constraints.iter().flat_map(|&constraint| facts_of(constraint)).chain(more).collect();
    settle(variables, facts)
}

/// What the other rules give goes first, so that it shows where two children of a root are the same by their own rule alone. The least set
/// is the same.
fn settle(variables: Vec<Variable>, mut facts: BTreeSet<Fact>) -> Settling {
    let mut made_one_child = false;
    loop {
        if let Some(clash) = first_clash(&facts) {
            return Settling { result: Err(clash), made_one_child };
        }
        let held = facts.len();
        facts.extend(conclusions(&variables, &facts));
        if facts.len() == held {
            facts.extend(children_of_roots_made_one(&variables, &facts));
            if facts.len() == held {
                return Settling { result: Ok(Settled { variables, facts }), made_one_child };
            }
            made_one_child = true;
        }
    }
}

fn first_clash(facts: &BTreeSet<Fact>) -> Option<Clash> {
    facts.iter().find_map(|&fact| match fact {
        Differ(x, y) if x == y => Some(Clash::DiffersFromItself),
        Label(x, label) if labels_of(facts, x).any(|other| !are_equal(other, label)) => Some(Clash::TwoLabels),
        Before(x, y) if facts.contains(&Below(x, y)) => Some(Clash::LaterSiblingBelow),
        Before(x, y) if facts.contains(&Below(y, x)) => Some(Clash::EarlierSiblingBelow),
        Root(x) if facts.contains(&Leaf(x)) => Some(Clash::LeafOnDocumentNode),
        Root(x) if labels_of(facts, x).next().is_some() => Some(Clash::LabelOnDocumentNode),
        _ => None,
    })
}

fn labels_of(facts: &BTreeSet<Fact>, x: Variable) -> impl Iterator<Item = u8> + '_ {
    facts.range(Label(x, 0)..=Label(x, 255)).filter_map(|&fact| match fact {
        Label(_, label) => Some(label),
        _ => None,
    })
}

/// What rules 1 to 7 and those of before give in one step, and the symmetry of differ.
fn conclusions(variables: &[Variable], facts: &BTreeSet<Fact>) -> Vec<Fact> {
    let mut drawn: Vec<Fact> = variables.iter().map(|&x| Below(x, x)).collect();
    for &fact in facts {
        match fact {
            Child(x, z) => {
                drawn.extend([Below(x, z), Differ(x, z)]);
                for &y in variables {
                    if facts.contains(&Child(y, z)) {
                        drawn.extend(same(x, y));
                    }
                }
            }
            Below(x, y) => {
                for &z in variables {
                    if facts.contains(&Below(y, z)) {
                        drawn.push(Below(x, z));
                    }
                }
                if facts.contains(&Leaf(x)) {
                    drawn.push(Below(y, x));
                }
                if x != y && facts.contains(&Below(y, x)) {
                    drawn.extend(facts.iter().flat_map(|&shared| with_one_place_changed(shared, x, y)));
                }
            }
            Differ(x, y) => drawn.push(Differ(y, x)),
            Before(x, y) => drawn.extend(conclusions_of_siblings(variables, facts, x, y)),
            Root(x) => drawn.extend(variables.iter().map(|&y| Below(x, y))),
            Leaf(_) | Label(_, _) => {}
        }
    }
    drawn
}

/// "Two children of it are the same": of the document node, which root(r) names.
fn children_of_roots_made_one(variables: &[Variable], facts: &BTreeSet<Fact>) -> Vec<Fact> {
    let children_of = |r: Variable| variables.iter().copied().filter(move |&x| facts.contains(&Child(r, x)));
    let roots = variables.iter().copied().filter(|&r| facts.contains(&Root(r)));
    roots.flat_map(|r| children_of(r).flat_map(move |x| children_of(r).flat_map(move |y| same(x, y)))).collect()
}

/// From before(x,y): before chains, gives differ, and passes a child fact to the other sibling.
fn conclusions_of_siblings(variables: &[Variable], facts: &BTreeSet<Fact>, x: Variable, y: Variable) -> Vec<Fact> {
    let mut drawn = vec![Differ(x, y)];
    for &z in variables {
        if facts.contains(&Before(y, z)) {
            drawn.push(Before(x, z));
        }
        if facts.contains(&Child(z, x)) {
            drawn.push(Child(z, y));
        }
        if facts.contains(&Child(z, y)) {
            drawn.push(Child(z, x));
        }
    }
    drawn
}

/// The facts that say of `other` what this one says of `variable`, one place at a time; none if it does not name `variable`.
fn with_one_place_changed(fact: Fact, variable: Variable, other: Variable) -> Vec<Fact> {
    let mut changed = Vec::new();
    let mut change_pair = |x: Variable, y: Variable, make: fn(Variable, Variable) -> Fact| {
        if x == variable {
            changed.push(make(other, y));
        }
        if y == variable {
            changed.push(make(x, other));
        }
    };
    match fact {
        Child(x, y) => change_pair(x, y, Child),
        Below(x, y) => change_pair(x, y, Below),
        Differ(x, y) => change_pair(x, y, Differ),
        Before(x, y) => change_pair(x, y, Before),
        Root(x) if x == variable => changed.push(Root(other)),
        Leaf(x) if x == variable => changed.push(Leaf(other)),
        Label(x, label) if x == variable => changed.push(Label(other, label)),
        Root(_) | Leaf(_) | Label(_, _) => {}
    }
    changed
}
