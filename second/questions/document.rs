//! Questions in which much hangs on the document node (document 02, request (v)).

use crate::{random_constraint, Mix, Random};
use second::constraint::{Constraint, Variable};

/// A long search by the fourth join: a root with a child, and others of which each must stand at or below that child or on the root. Some must
/// stand apart from the root, from the child or from one another, or have a label or a sibling, which keeps them off the root. Often one
/// has no place left, since the child is a leaf: there is no tree, and every way is tried.
pub fn crowded_document(random: &mut Random) -> Vec<Constraint> {
    let others = 2 + random.below(5);
    let mut names: Vec<Variable> = (0..(others + 2) as u8).map(Variable).collect();
    random.shuffle(&mut names);
    let (root, element, crowd) = (names[0], names[1], &names[2..]);
    let mut constraints = vec![Constraint::Root(root), Constraint::Child(root, element)];
    for (at, &w) in crowd.iter().enumerate() {
        let other = random.pick(&names[..2 + at]);
        match random.below(8) {
            0 => constraints.push(Constraint::Differ(w, root)),
            1 => constraints.push(Constraint::Differ(w, element)),
            2 => constraints.push(Constraint::Label(w, random.pick(&[65, 97, 98]))),
            3 => constraints.push(Constraint::Below(w, other)),
            4 => constraints.push(Constraint::Differ(w, other)),
            5 => constraints.push(Constraint::Child(w, random.pick(crowd))),
            6 if random.one_in(2) => constraints.push(Constraint::Before(w, random.pick(crowd))),
            _ => {}
        }
    }
    if random.one_in(2) {
        constraints.push(Constraint::Leaf(element));
    }
    if random.one_in(3) {
        let (last, before_it) = (crowd[others - 1], crowd[others - 2]);
        constraints.extend([Constraint::Differ(last, root), Constraint::Below(last, before_it)]);
        constraints.push(Constraint::Below(before_it, element));
    }
    random.shuffle(&mut constraints);
    constraints
}

/// A root and its children, more than one as a rule, before the records of another question.
pub fn with_document(random: &mut Random, constraints: &mut Vec<Constraint>, variables: usize, mix: &Mix) {
    let variable = |random: &mut Random| Variable(random.below(variables) as u8);
    let root = variable(random);
    let mut front = vec![Constraint::Root(root)];
    for _ in 0..random.below(3) {
        front.push(Constraint::Child(root, variable(random)));
    }
    if random.one_in(3) {
        front.push(random_constraint(random, variables, mix));
    }
    constraints.splice(0..0, front);
}
