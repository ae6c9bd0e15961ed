//! The variables and records of a text of paths (document 02, requests (i) and (iii)), by a walk over its syntax in text order.

use crate::constraint::{Constraint, Variable};
use crate::path::{Axis, Path, Step, Test};

pub const MOST_VARIABLES: usize = 16;

/// The node where all lines end.
pub const END: Variable = Variable(0);

pub struct Translation {
    pub variables: usize,
    pub records: Vec<Constraint>,
}

struct Walk {
    /// The lowest number that no start and no step has yet.
    next: u8,
    /// All roots share one variable.
    root: Option<Variable>,
    records: Vec<Constraint>,
}

pub fn translate(lines: &[Path]) -> Translation {
    let mut walk = Walk { next: END.0 + 1, root: None, records: Vec::new() };
    for line in lines {
        walk.line(line);
    }
    Translation { variables: walk.next as usize, records: walk.records }
}

impl Walk {
    /// A text of 1,024 bytes reaches less than 150 starts and steps.
    fn new_variable(&mut self) -> Variable {
        let variable = Variable(self.next);
        self.next += 1;
        variable
    }

    /// Numbered, and written, at the first `/` start.
    fn root(&mut self) -> Variable {
        if let Some(root) = self.root {
            return root;
        }
        let root = self.new_variable();
        self.root = Some(root);
        self.records.push(Constraint::Root(root));
        root
    }

    /// A line starts at the root or at any node, and its last step reaches the node where all lines end.
    fn line(&mut self, line: &Path) {
        let start = if line.from_root { self.root() } else { self.new_variable() };
        match line.steps.split_last() {
            None => self.records.push(Constraint::Same(start, END)),
            Some((last, before)) => {
                let left = self.steps(before, start);
                self.step(last, left, END);
            }
        }
    }

    /// A path in brackets starts at the root or at the node that the brackets follow, and may end anywhere.
    fn bracket(&mut self, path: &Path, follows: Variable) {
        let start = if path.from_root { self.root() } else { follows };
        self.steps(&path.steps, start);
    }

    /// Gives the variable of the last one.
    fn steps(&mut self, steps: &[Step], start: Variable) -> Variable {
        steps.iter().fold(start, |left, step| {
            let reached = self.new_variable();
            self.step(step, left, reached);
            reached
        })
    }

    fn step(&mut self, step: &Step, left: Variable, reached: Variable) {
        self.records.push(axis_record(step.axis, left, reached));
        if let Test::Letter(label) = step.test {
            self.records.push(Constraint::Label(reached, label));
        }
        for path in &step.brackets {
            self.bracket(path, reached);
        }
    }
}

/// x is the node left and y the one reached, the other way round for the parent, ancestor and preceding-sibling axes.
fn axis_record(axis: Axis, left: Variable, reached: Variable) -> Constraint {
    match axis {
        Axis::Itself => Constraint::Same(left, reached),
        Axis::Child => Constraint::Child(left, reached),
        Axis::Parent => Constraint::Child(reached, left),
        Axis::Descendant => Constraint::StrictlyBelow(left, reached),
        Axis::Ancestor => Constraint::StrictlyBelow(reached, left),
        Axis::DescendantOrSelf => Constraint::Below(left, reached),
        Axis::AncestorOrSelf => Constraint::Below(reached, left),
        Axis::FollowingSibling => Constraint::Before(left, reached),
        Axis::PrecedingSibling => Constraint::Before(reached, left),
    }
}
