//! Trees (source 004, definition 2.1, with the order of siblings in place of document order, and document 02, request (v), for node 0),
//! assignments, and when a constraint is met (source 000, section 2).

use crate::constraint::{Constraint, Variable};
use crate::label::are_equal;

#[derive(Clone, Copy, PartialEq, Eq, PartialOrd, Ord, Debug)]
pub struct Node(pub usize);

#[derive(Clone, PartialEq, Eq, Debug)]
pub struct Tree {
    /// The parent of each node; only node 0 has none, and every other parent has a smaller number than its node. The children of a node
    /// stand in the order of their numbers. Node 0 is the document node: blank, with exactly one child, so that node 1 is the outermost
    /// element and only it has parent 0.
    pub parents: Vec<Option<Node>>,
    /// As they are drawn: a candidate's tree may have capitals.
    pub labels: Vec<u8>,
}

/// Above the one outermost element, without a name.
pub const DOCUMENT_NODE: Node = Node(0);
/// The one child of the document node.
pub const OUTERMOST_ELEMENT: Node = Node(1);

/// The node of each variable. Only here does a variable become a node.
#[derive(Clone, PartialEq, Eq, Debug)]
pub struct Assignment(pub Vec<Node>);

impl Assignment {
    pub fn node_of(&self, variable: Variable) -> Node {
        self.0[variable.0 as usize]
    }

    pub fn lowest_variable_on(&self, node: Node) -> Option<Variable> {
        self.0.iter().position(|&place| place == node).map(|variable| Variable(variable as u8))
    }
}

impl Tree {
    pub fn parent(&self, node: Node) -> Option<Node> {
        self.parents[node.0]
    }

    pub fn label(&self, node: Node) -> u8 {
        self.labels[node.0]
    }

    pub fn has_child(&self, node: Node) -> bool {
        self.parents.contains(&Some(node))
    }

    /// Walks up from `node`: is `above` the node itself or an ancestor of it?
    pub fn is_at_or_above(&self, above: Node, node: Node) -> bool {
        let mut here = Some(node);
        while let Some(reached) = here {
            if reached == above {
                return true;
            }
            here = self.parent(reached);
        }
        false
    }

    /// Have the two nodes one parent, and is `earlier` the one with the smaller number? Node 0 has no parent, and so no sibling.
    pub fn is_earlier_sibling(&self, earlier: Node, later: Node) -> bool {
        let parent = self.parent(earlier);
        parent.is_some() && parent == self.parent(later) && earlier.0 < later.0
    }
}

pub fn meets(tree: &Tree, assignment: &Assignment, constraint: Constraint) -> bool {
    let node = |variable| assignment.node_of(variable);
    match constraint {
        Constraint::Child(x, y) => tree.parent(node(y)) == Some(node(x)),
        Constraint::Below(x, y) => tree.is_at_or_above(node(x), node(y)),
        Constraint::StrictlyBelow(x, y) => tree.is_at_or_above(node(x), node(y)) && node(x) != node(y),
        Constraint::Same(x, y) => node(x) == node(y),
        Constraint::Differ(x, y) => node(x) != node(y),
        Constraint::Root(x) => tree.parent(node(x)).is_none(),
        Constraint::Leaf(x) => !tree.has_child(node(x)),
        Constraint::Label(x, label) => are_equal(tree.label(node(x)), label),
        Constraint::Before(x, y) => tree.is_earlier_sibling(node(x), node(y)),
    }
}

pub fn first_unmet(tree: &Tree, assignment: &Assignment, constraints: &[Constraint]) -> Option<usize> {
    constraints.iter().position(|&constraint| !meets(tree, assignment, constraint))
}
