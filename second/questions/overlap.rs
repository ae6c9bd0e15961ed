//! Questions in which a chain join's second alternative is entered, and what follows would put its x and y on one node (document 02, request
//! (ix)).

use crate::Random;
use second::constraint::{Constraint, Variable};

pub fn crowded_chain(random: &mut Random) -> Vec<Constraint> {
    match random.below(4) {
        0 => one_parent_twice(random),
        1 => leaf_under_the_document_node(random),
        _ => siblings_above_one(random),
    }
}

/// An earlier sibling of z and of a variable above z, and others above z, some of them strictly: who is on z with the later sibling is
/// decided last, by third joins.
fn siblings_above_one(random: &mut Random) -> Vec<Constraint> {
    let others = 1 + random.below(4);
    let names = shuffled_names(random, 3 + others);
    let (earlier, z, x, crowd) = (names[0], names[1], names[2], &names[3..]);
    let mut constraints = vec![Constraint::Before(earlier, z), Constraint::Below(x, z)];
    if !random.one_in(6) {
        constraints.push(Constraint::Before(earlier, x));
    }
    for &a in crowd {
        let over = if random.one_in(3) { random.pick(crowd) } else { z };
        constraints.push(if random.one_in(2) {
            Constraint::Below(a, over)
        } else {
            Constraint::StrictlyBelow(a, over)
        });
    }
    for _ in 0..random.below(3) {
        let (a, b) = (random.pick(&names), random.pick(&names));
        constraints.push(match random.below(4) {
            0 => Constraint::Differ(a, b),
            1 => Constraint::Below(a, b),
            2 => Constraint::Before(a, b),
            _ => Constraint::Label(a, random.pick(&[97, 98])),
        });
    }
    random.shuffle(&mut constraints);
    constraints
}

/// Two children of one parent above one variable, which are the same by parent joins, once, twice or three times; often the last two are apart.
fn one_parent_twice(random: &mut Random) -> Vec<Constraint> {
    let times = 1 + random.below(3);
    let names = shuffled_names(random, 4 * times);
    let mut constraints = Vec::new();
    for four in names.chunks(4) {
        let (parent, x, y, z) = (four[0], four[1], four[2], four[3]);
        constraints.extend([Constraint::Child(parent, x), Constraint::Child(parent, y)]);
        constraints.extend([Constraint::Below(x, z), Constraint::Below(y, z)]);
    }
    let last = &names[4 * (times - 1)..];
    if !random.one_in(4) {
        constraints.push(Constraint::Differ(last[1], last[2]));
    }
    if random.one_in(3) {
        constraints.push(Constraint::Below(random.pick(&names), random.pick(&names)));
    }
    random.shuffle(&mut constraints);
    constraints
}

/// All that is not on the document node is on its child, a leaf, by fourth joins; often one more has no place left.
fn leaf_under_the_document_node(random: &mut Random) -> Vec<Constraint> {
    let others = 2 + random.below(2);
    let names = shuffled_names(random, 4 + others);
    let (root, element, z, last, crowd) = (names[0], names[1], names[2], names[3], &names[4..]);
    let mut constraints = vec![Constraint::Root(root), Constraint::Child(root, element), Constraint::Leaf(element)];
    constraints.extend(crowd.iter().map(|&a| Constraint::Below(a, z)));
    constraints.push(Constraint::Differ(last, element));
    if !random.one_in(3) {
        constraints.push(Constraint::Differ(last, root));
    }
    if random.one_in(3) {
        constraints.push(Constraint::Differ(random.pick(crowd), random.pick(&[root, element])));
    }
    random.shuffle(&mut constraints);
    constraints
}

fn shuffled_names(random: &mut Random, variables: usize) -> Vec<Variable> {
    let mut names: Vec<Variable> = (0..variables as u8).map(Variable).collect();
    random.shuffle(&mut names);
    names
}
