//! Constraint files: the nine kinds, and questions 1 to 6.

use crate::Refusal;

#[derive(Clone, Copy, PartialEq, Eq, PartialOrd, Ord, Debug)]
pub struct Variable(pub u8);

#[derive(Clone, Copy, PartialEq, Eq, Debug)]
pub enum Constraint {
    Child(Variable, Variable),
    Below(Variable, Variable),
    StrictlyBelow(Variable, Variable),
    Same(Variable, Variable),
    Differ(Variable, Variable),
    Root(Variable),
    Leaf(Variable),
    Label(Variable, u8),
    Before(Variable, Variable),
}

use Constraint::*;

/// The names of kinds 1 to 9, as the examples write them.
pub const KIND_NAMES: [&str; 9] =
    ["child", "below", "strictly-below", "same", "differ", "root", "leaf", "label", "before"];

impl Constraint {
    pub fn kind(self) -> u8 {
        self.record()[0]
    }

    pub fn record(self) -> [u8; 4] {
        match self {
            Child(x, y) => [1, x.0, y.0, 0],
            Below(x, y) => [2, x.0, y.0, 0],
            StrictlyBelow(x, y) => [3, x.0, y.0, 0],
            Same(x, y) => [4, x.0, y.0, 0],
            Differ(x, y) => [5, x.0, y.0, 0],
            Root(x) => [6, x.0, 0, 0],
            Leaf(x) => [7, x.0, 0, 0],
            Label(x, label) => [8, x.0, 0, label],
            Before(x, y) => [9, x.0, y.0, 0],
        }
    }

    pub fn variables(self) -> Vec<Variable> {
        match self {
            Child(x, y) | Below(x, y) | StrictlyBelow(x, y) | Same(x, y) | Differ(x, y) | Before(x, y) => vec![x, y],
            Root(x) | Leaf(x) | Label(x, _) => vec![x],
        }
    }
}

pub fn read(file: &[u8]) -> Result<Vec<Constraint>, Refusal> {
    if file.len() > 1024 {
        return Err(Refusal(1));
    }
    if file.len() % 4 != 0 {
        return Err(Refusal(2));
    }
    file.chunks(4).map(|record| read_record(record[0], record[1], record[2], record[3])).collect()
}

fn read_record(kind: u8, x: u8, y: u8, label: u8) -> Result<Constraint, Refusal> {
    if !(1..=9).contains(&kind) {
        return Err(Refusal(3));
    }
    let names_y = kind <= 5 || kind == 9;
    let has_label = kind == 8;
    if x > 15 || (names_y && y > 15) {
        return Err(Refusal(4));
    }
    if has_label && label < 1 {
        return Err(Refusal(5));
    }
    if (!names_y && y != 0) || (!has_label && label != 0) {
        return Err(Refusal(6));
    }
    let (x, y) = (Variable(x), Variable(y));
    Ok(match kind {
        1 => Child(x, y),
        2 => Below(x, y),
        3 => StrictlyBelow(x, y),
        4 => Same(x, y),
        5 => Differ(x, y),
        6 => Root(x),
        7 => Leaf(x),
        8 => Label(x, label),
        _ => Before(x, y),
    })
}

/// The highest number named plus one; a number skipped below the highest is a variable too.
pub fn number_of_variables(constraints: &[Constraint]) -> usize {
    let named = constraints.iter().flat_map(|constraint| constraint.variables());
    named.map(|variable| variable.0 as usize + 1).max().unwrap_or(0)
}

pub fn write(constraints: &[Constraint]) -> Vec<u8> {
    constraints.iter().flat_map(|constraint| constraint.record()).collect()
}
