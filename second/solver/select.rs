//! What a path selects on a tree: source 004, definitions 2.2 and 2.3, the cases by their numbers there. Cases 12 to 14 (intersection, union,
//! difference) are none of requests (i) and (iii). The root is the document node (request (v)), which has no name: no letter passes it.
//! A letter passes its capital and its small letter (request (vi)).

use crate::label::are_equal;
use crate::path::{Axis, Path, Step, Test};
use crate::tree::{Node, Tree, DOCUMENT_NODE};

/// Definition 2.2.
pub enum Expression {
    Itself,
    Up,
    Down,
    UpStar,
    DownStar,
    Left,
    Right,
    Root,
    Tag(u8),
    Then(Box<Expression>, Box<Expression>),
    Having(Box<Expression>, Box<Expression>),
}

use Expression::*;

fn then(first: Expression, second: Expression) -> Expression {
    Then(Box::new(first), Box::new(second))
}

/// A path that starts with `/` starts at the root; another where it is evaluated.
pub fn expression(path: &Path) -> Expression {
    let start = if path.from_root { Root } else { Itself };
    path.steps.iter().fold(start, |before, step| then(before, step_expression(step)))
}

/// "The tag names steps behave as if they follow the self axis": `child::a` is child, then a. `*` passes any node, the
/// document node too.
fn step_expression(step: &Step) -> Expression {
    let axis = match step.axis {
        Axis::Itself => Itself,
        Axis::Child => Down,
        Axis::Parent => Up,
        Axis::Descendant => then(Down, DownStar),
        Axis::Ancestor => then(Up, UpStar),
        Axis::DescendantOrSelf => DownStar,
        Axis::AncestorOrSelf => UpStar,
        Axis::FollowingSibling => Right,
        Axis::PrecedingSibling => Left,
    };
    let tested = match step.test {
        Test::Letter(letter) => then(axis, Tag(letter)),
        Test::Any => axis,
    };
    step.brackets.iter().fold(tested, |before, path| Having(Box::new(before), Box::new(expression(path))))
}

/// For each node n, as bits, the nodes n' with (n, n') in the set.
struct Pairs(Vec<u64>);

impl Pairs {
    fn of(tree: &Tree, holds: impl Fn(Node, Node) -> bool) -> Pairs {
        let nodes = || (0..tree.parents.len()).map(Node);
        let row = |n: Node| nodes().filter(|&m| holds(n, m)).fold(0, |row, m| row | 1 << m.0);
        Pairs(nodes().map(row).collect())
    }

    fn holds(&self, n: Node, m: Node) -> bool {
        self.0[n.0] >> m.0 & 1 == 1
    }
}

/// Definition 2.3; m is n'.
fn pairs(tree: &Tree, expression: &Expression) -> Pairs {
    match expression {
        // (1)
        Itself => Pairs::of(tree, |n, m| n == m),
        // (2)
        Up => Pairs::of(tree, |n, m| tree.parent(n) == Some(m)),
        // (3)
        Down => Pairs::of(tree, |n, m| tree.parent(m) == Some(n)),
        // (4)
        UpStar => Pairs::of(tree, |n, m| tree.is_at_or_above(m, n)),
        // (5)
        DownStar => Pairs::of(tree, |n, m| tree.is_at_or_above(n, m)),
        // (6)
        Left => Pairs::of(tree, |n, m| m.0 < n.0 && have_one_parent(tree, n, m)),
        // (7)
        Right => Pairs::of(tree, |n, m| n.0 < m.0 && have_one_parent(tree, n, m)),
        // (8)
        Root => Pairs::of(tree, |_, m| tree.parent(m).is_none()),
        // (9)
        Tag(tag) => Pairs::of(tree, |n, m| n == m && n != DOCUMENT_NODE && are_equal(tree.label(n), *tag)),
        // (10)
        Then(first, second) => {
            let (first, second) = (pairs(tree, first), pairs(tree, second));
            let reached = |row: &u64| {
                second.0.iter().enumerate().filter(|(m, _)| row >> m & 1 == 1).fold(0, |all, (_, next)| all | next)
            };
            Pairs(first.0.iter().map(reached).collect())
        }
        // (11)
        Having(path, predicate) => {
            let (path, predicate) = (pairs(tree, path), pairs(tree, predicate));
            Pairs::of(tree, |n, m| path.holds(n, m) && predicate.0[m.0] != 0)
        }
    }
}

/// "There is an n'' such that" it is the parent of both. Of two siblings the one with the smaller number comes first.
fn have_one_parent(tree: &Tree, n: Node, m: Node) -> bool {
    (0..tree.parents.len()).map(Node).any(|parent| tree.parent(n) == Some(parent) && tree.parent(m) == Some(parent))
}

/// The nodes that the line selects from some node.
fn selected_by(tree: &Tree, line: &Expression) -> u64 {
    pairs(tree, line).0.iter().fold(0, |all, row| all | row)
}

/// The nodes that every line selects.
pub fn selected_by_all(tree: &Tree, lines: &[Expression]) -> Vec<Node> {
    assert!(tree.parents.len() <= 64, "a row has 64 bits");
    let selected = lines.iter().fold(u64::MAX, |all, line| all & selected_by(tree, line));
    (0..tree.parents.len()).filter(|node| selected >> node & 1 == 1).map(Node).collect()
}
