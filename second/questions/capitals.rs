//! A question, an answer or a text of paths with other labels in place of its own (document 02, request (vi)): in the other case, or with the
//! capitals taken apart. Which bytes are letters is the standard library's to say, not the second solver's. And questions in which the search hangs
//! on which letters are equal.

use crate::Random;
use second::answer;
use second::constraint::{self, number_of_variables, Constraint, Variable};
use second::path::{Path, Step, Test};
use std::collections::BTreeSet;

pub fn small(label: u8) -> u8 {
    label.to_ascii_lowercase()
}

pub fn capital(label: u8) -> u8 {
    label.to_ascii_uppercase()
}

pub fn in_either_case(random: &mut Random, label: u8) -> u8 {
    if random.one_in(2) {
        small(label)
    } else {
        capital(label)
    }
}

/// As if case counted: each capital becomes a label that equals no other, 165 to 190.
pub fn apart(label: u8) -> u8 {
    if label.is_ascii_uppercase() {
        label + 100
    } else {
        label
    }
}

/// Each label record, of kind 8, with another label.
pub fn relabelled_question(file: &[u8], label: impl FnMut(u8) -> u8) -> Vec<u8> {
    relabelled(file, 8, label)
}

/// Each node record, of kind 1, with another label.
pub fn relabelled_answer(file: &[u8], label: impl FnMut(u8) -> u8) -> Vec<u8> {
    relabelled(file, 1, label)
}

fn relabelled(file: &[u8], kind: u8, mut label: impl FnMut(u8) -> u8) -> Vec<u8> {
    let mut changed = file.to_vec();
    for record in changed.chunks_exact_mut(4).filter(|record| record[0] == kind) {
        record[3] = label(record[3]);
    }
    changed
}

/// Each letter that is a test replaced.
pub fn relabelled_lines(lines: &[Path], label: &mut dyn FnMut(u8) -> u8) -> Vec<Path> {
    let relabelled_path = |path: &Path| Path {
        from_root: path.from_root,
        steps: path.steps.iter().map(|step| relabelled_step(step, label)).collect(),
    };
    lines.iter().map(relabelled_path).collect()
}

fn relabelled_step(step: &Step, label: &mut dyn FnMut(u8) -> u8) -> Step {
    let test = match step.test {
        Test::Letter(letter) => Test::Letter(label(letter)),
        Test::Any => Test::Any,
    };
    Step { axis: step.axis, test, brackets: relabelled_lines(&step.brackets, label) }
}

/// Has a label record of the question a capital?
pub fn question_has_capital(file: &[u8]) -> bool {
    has_capital(file, 8)
}

/// Has a node record of the answer a capital?
pub fn answer_has_capital(file: &[u8]) -> bool {
    has_capital(file, 1)
}

fn has_capital(file: &[u8], kind: u8) -> bool {
    file.chunks_exact(4).any(|record| record[0] == kind && record[3].is_ascii_uppercase())
}

/// Of an accepted question and its tree: is a label asked in both cases on one node, of one variable or of two?
pub fn has_both_cases(file: &[u8], answer_file: &[u8], on_one_variable: bool) -> bool {
    let constraints = constraint::read(file).expect("an accepted file");
    let (_, assignment) =
        answer::read(answer_file, number_of_variables(&constraints)).expect("an answer of the second solver");
    let label_asked = |&record: &Constraint| match record {
        Constraint::Label(x, label) => Some((x, label)),
        _ => None,
    };
    let asked: BTreeSet<(Variable, u8)> = constraints.iter().filter_map(label_asked).collect();
    let mut pairs = asked.iter().flat_map(|x| asked.iter().map(move |y| (x, y)));
    pairs.any(|((x, label), (y, other))| {
        (x == y) == on_one_variable && label != other && assignment.node_of(*x) == assignment.node_of(*y)
    })
}

/// A path down from the root whose nodes have letters, and others with letters that must stand on it: which alternatives clash hangs on which
/// letters are equal. Some must stand apart from a node of the path, or have no letter.
pub fn crowded_letters(random: &mut Random) -> Vec<Constraint> {
    const LETTERS: &[u8] = b"aaAAbBz";
    let steps = 2 + random.below(4);
    let others = 1 + random.below(4);
    let mut names: Vec<Variable> = (0..(1 + steps + others) as u8).map(Variable).collect();
    random.shuffle(&mut names);
    let (path, crowd) = names.split_at(1 + steps);
    let mut constraints: Vec<Constraint> = path.windows(2).map(|step| Constraint::Child(step[0], step[1])).collect();
    if !random.one_in(4) {
        constraints.push(Constraint::Root(path[0]));
    }
    for &x in &path[1..] {
        constraints.push(Constraint::Label(x, random.pick(LETTERS)));
    }
    for &x in crowd {
        constraints.push(Constraint::Below(x, path[steps]));
        if !random.one_in(4) {
            constraints.push(Constraint::Label(x, random.pick(LETTERS)));
        }
        if random.one_in(3) {
            constraints.push(Constraint::Differ(x, random.pick(path)));
        }
    }
    random.shuffle(&mut constraints);
    constraints
}
