//! Seeded questions for the comparison and for the stored corpus.

pub mod capitals;
pub mod centres;
pub mod document;
pub mod overlap;
pub mod paths;
pub mod shuffle;
pub mod xml;

use capitals::in_either_case;
use second::constraint::{Constraint, Variable};
use second::tree::{meets, Assignment, Node, Tree, DOCUMENT_NODE};

/// Splitmix64: the same seed gives the same questions on every machine.
pub struct Random(u64);

impl Random {
    pub fn new(seed: u64) -> Random {
        Random(seed)
    }

    pub fn next(&mut self) -> u64 {
        self.0 = self.0.wrapping_add(0x9e3779b97f4a7c15);
        let mut z = self.0;
        z = (z ^ (z >> 30)).wrapping_mul(0xbf58476d1ce4e5b9);
        z = (z ^ (z >> 27)).wrapping_mul(0x94d049bb133111eb);
        z ^ (z >> 31)
    }

    /// A number from 0 to `limit` − 1.
    pub fn below(&mut self, limit: usize) -> usize {
        (self.next() % limit as u64) as usize
    }

    pub fn byte(&mut self) -> u8 {
        self.below(256) as u8
    }

    pub fn one_in(&mut self, limit: usize) -> bool {
        self.below(limit) == 0
    }

    pub fn pick<T: Copy>(&mut self, from: &[T]) -> T {
        from[self.below(from.len())]
    }

    pub fn shuffle<T>(&mut self, list: &mut [T]) {
        for last in (1..list.len()).rev() {
            list.swap(last, self.below(last + 1));
        }
    }
}

/// Few labels, so that two records often ask for the same one, in either case: small letters, their capitals, and both ends of the range;
/// more seldom the last letter and the bytes beside the letters.
const LABELS: [u8; 18] = [97, 97, 98, 98, 65, 65, 66, 66, 1, 1, 255, 255, 90, 122, 64, 91, 96, 123];

/// What a file leans to.
pub struct Mix {
    /// The kinds drawn from, so that some come up more often than others.
    kinds: Vec<u8>,
    /// y is one of the first so many variables: where they are few, many variables are above each, and joins abound.
    lowest: usize,
}

impl Mix {
    pub fn random(random: &mut Random) -> Mix {
        let mut kinds = Vec::new();
        for kind in 1..=9 {
            for _ in 0..random.pick(&[0, 1, 1, 2, 5]) {
                kinds.push(kind);
            }
        }
        if kinds.is_empty() {
            kinds.extend(1..=9);
        }
        Mix { kinds, lowest: random.pick(&[1, 2, 3, 16, 16]) }
    }
}

pub fn random_constraint(random: &mut Random, variables: usize, mix: &Mix) -> Constraint {
    let x = Variable(random.below(variables) as u8);
    let y = Variable(random.below(variables.min(mix.lowest)) as u8);
    match random.pick(&mix.kinds) {
        1 => Constraint::Child(x, y),
        2 => Constraint::Below(x, y),
        3 => Constraint::StrictlyBelow(x, y),
        4 => Constraint::Same(x, y),
        5 => Constraint::Differ(x, y),
        6 => Constraint::Root(x),
        7 => Constraint::Leaf(x),
        8 => Constraint::Label(x, random.pick(&LABELS)),
        _ => Constraint::Before(x, y),
    }
}

pub fn has_root(constraints: &[Constraint]) -> bool {
    constraints.iter().any(|constraint| matches!(constraint, Constraint::Root(_)))
}

pub fn has_siblings(constraints: &[Constraint]) -> bool {
    constraints.iter().any(|constraint| matches!(constraint, Constraint::Before(_, _)))
}

pub fn free(random: &mut Random, variables: usize, records: usize, mix: &Mix) -> Vec<Constraint> {
    (0..records).map(|_| random_constraint(random, variables, mix)).collect()
}

/// Constraints that one tree and assignment meet, drawn by chance; fewer than `records` where hardly any are met.
pub fn planted(
    random: &mut Random,
    tree: &Tree,
    assignment: &Assignment,
    records: usize,
    mix: &Mix,
) -> Vec<Constraint> {
    let variables = assignment.0.len();
    let mut constraints = Vec::new();
    for _ in 0..20 * records {
        if constraints.len() == records {
            break;
        }
        let constraint = match random_constraint(random, variables, mix) {
            Constraint::Label(x, _) if tree.label(assignment.node_of(x)) > 0 => {
                Constraint::Label(x, in_either_case(random, tree.label(assignment.node_of(x))))
            }
            Constraint::Before(x, y) => match on_later_siblings(tree, assignment, x).as_slice() {
                [] => Constraint::Before(x, y),
                later => Constraint::Before(x, random.pick(later)),
            },
            other => other,
        };
        if meets(tree, assignment, constraint) {
            constraints.push(constraint);
        }
    }
    constraints
}

fn on_later_siblings(tree: &Tree, assignment: &Assignment, x: Variable) -> Vec<Variable> {
    let variables = (0..assignment.0.len() as u8).map(Variable);
    variables.filter(|&y| meets(tree, assignment, Constraint::Before(x, y))).collect()
}

/// A long search: a path from the root down to one variable, and others that must stand on that path, some of them apart. Pigeons in
/// holes: if more must stand apart than the path has nodes, there is no tree, and every way is tried.
pub fn crowded_path(random: &mut Random) -> Vec<Constraint> {
    let steps = random.below(4);
    let others = 3 + random.below(5);
    let apart = random.below(steps + 4).min(others);
    let mut names: Vec<Variable> = (0..(1 + steps + others) as u8).map(Variable).collect();
    random.shuffle(&mut names);
    let (path, crowd) = names.split_at(1 + steps);
    let mut constraints = vec![Constraint::Root(path[0])];
    constraints.extend(path.windows(2).map(|step| Constraint::Child(step[0], step[1])));
    constraints.extend(crowd.iter().map(|&x| Constraint::Below(x, path[steps])));
    for (at, &x) in crowd[..apart].iter().enumerate() {
        constraints.extend(crowd[..at].iter().map(|&y| Constraint::Differ(y, x)));
    }
    random.shuffle(&mut constraints);
    constraints
}

/// A long search by the third join: siblings in a row, and others that must stand at or above one of them, some of them apart, some in the
/// row themselves. Often two more are earlier than a third, the one above the other and apart from it: there is no tree, and every way is
/// tried.
pub fn crowded_siblings(random: &mut Random) -> Vec<Constraint> {
    let siblings = 2 + random.below(3);
    let others = 2 + random.below(5);
    let apart = random.below(others + 1);
    let mut names: Vec<Variable> = (0..(siblings + others + 3) as u8).map(Variable).collect();
    random.shuffle(&mut names);
    let (row, rest) = names.split_at(siblings);
    let (crowd, last) = rest.split_at(others);
    let mut constraints: Vec<Constraint> = row.windows(2).map(|pair| Constraint::Before(pair[0], pair[1])).collect();
    for &a in crowd {
        constraints.push(Constraint::Below(a, random.pick(&row[1..])));
        if random.one_in(4) {
            constraints.push(Constraint::Before(row[0], a));
        }
    }
    for (at, &a) in crowd[..apart].iter().enumerate() {
        constraints.extend(crowd[..at].iter().filter(|_| random.one_in(2)).map(|&b| Constraint::Differ(b, a)));
    }
    if random.one_in(2) {
        constraints.extend([Constraint::Before(last[0], last[2]), Constraint::Before(last[1], last[2])]);
        constraints.extend([Constraint::Below(last[0], last[1]), Constraint::Differ(last[0], last[1])]);
    }
    random.shuffle(&mut constraints);
    constraints
}

/// Path-like, bushy or flat, with blanks; below the document node one element over all others. At least 2 nodes.
pub fn random_tree(random: &mut Random, nodes: usize) -> Tree {
    let reach = random.pick(&[1, 2, 3, nodes]);
    let mut tree = Tree { parents: vec![None, Some(DOCUMENT_NODE)], labels: vec![0, random_label(random)] };
    for node in 2..nodes {
        tree.parents.push(Some(Node(node - 1 - random.below(reach.min(node - 1)))));
        tree.labels.push(random_label(random));
    }
    tree
}

fn random_label(random: &mut Random) -> u8 {
    if random.one_in(3) {
        0
    } else {
        random.pick(&LABELS)
    }
}

pub fn random_assignment(random: &mut Random, variables: usize, tree: &Tree) -> Assignment {
    Assignment((0..variables).map(|_| Node(random.below(tree.parents.len()))).collect())
}

/// What a hand might slip: bytes lacking, doubled, changed or moved, words of the language in the wrong place, lines too many or too few.
pub fn damaged_bytes(random: &mut Random, text: &[u8], words: &[&[u8]]) -> Vec<u8> {
    let mut bytes = text.to_vec();
    for _ in 0..1 + random.below(2) {
        let at = random.below(bytes.len() + 1);
        let to = at + random.below(bytes.len() - at + 1).min(1 + random.below(12));
        match random.below(9) {
            0 | 1 => drop(bytes.drain(at..to.min(at + 1))),
            2 => drop(bytes.drain(at..to)),
            3 => drop(bytes.splice(at..at, random.pick(words).iter().copied())),
            4 => drop(bytes.splice(at..to, random.pick(words).iter().copied())),
            5 => drop(bytes.splice(at..at, bytes[at..to].to_vec())),
            6 => bytes.truncate(at),
            7 => {
                let changed = random.byte();
                bytes.iter_mut().skip(at).take(1).for_each(|byte| *byte = changed);
            }
            _ => bytes = bytes.repeat(random.pick(&[2, 3, 9])),
        }
    }
    bytes
}
