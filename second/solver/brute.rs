//! The meaning itself, tried out: every tree up to a size and every assignment. What a record asks does not hang on how the nodes are
//! numbered, beyond the order of siblings, so each ordered tree is tried once. In every tree node 0 is blank with one child.

use crate::constraint::{number_of_variables, Constraint};
use crate::tree::{first_unmet, Assignment, Node, Tree, DOCUMENT_NODE, OUTERMOST_ELEMENT};

/// The smallest tree there is: the document node and one element.
pub const LEAST_NODES: usize = 2;

/// Every tree shape of this many nodes, as the list of the parents of nodes 1, 2, ...
pub fn shapes(nodes: usize) -> Vec<Vec<Node>> {
    grown_shapes(nodes, |_| OUTERMOST_ELEMENT)
}

/// Every ordered tree once: numbered level by level, from first to last child. No parent is then smaller than the one before it, and a list
/// of such parents numbers its tree so.
pub fn ordered_shapes(nodes: usize) -> Vec<Vec<Node>> {
    grown_shapes(nodes, |shape| shape[shape.len() - 1].max(OUTERMOST_ELEMENT))
}

/// Below the outermost element node by node, each with every parent from `least_parent` on.
fn grown_shapes(nodes: usize, least_parent: impl Fn(&[Node]) -> Node) -> Vec<Vec<Node>> {
    assert!(nodes >= LEAST_NODES, "no tree has so few nodes");
    let mut shapes = vec![vec![DOCUMENT_NODE]];
    for node in LEAST_NODES..nodes {
        let grown = |shape: &Vec<Node>| {
            let parents = least_parent(shape).0..node;
            parents.map(|parent| [shape.as_slice(), &[Node(parent)]].concat()).collect::<Vec<_>>()
        };
        shapes = shapes.iter().flat_map(grown).collect();
    }
    shapes
}

pub fn assignments(variables: usize, nodes: usize) -> Vec<Assignment> {
    let mut assignments = vec![Vec::new()];
    for _ in 0..variables {
        let placed =
            |places: &Vec<Node>| (0..nodes).map(|node| [places.as_slice(), &[Node(node)]].concat()).collect::<Vec<_>>();
        assignments = assignments.iter().flat_map(placed).collect();
    }
    assignments.into_iter().map(Assignment).collect()
}

pub fn tree_of_shape(shape: &[Node], labels: Vec<u8>) -> Tree {
    let parents = std::iter::once(None).chain(shape.iter().copied().map(Some)).collect();
    Tree { parents, labels }
}

/// Is there a tree of at most `most_nodes` nodes, with an assignment, that meets every constraint?
pub fn some_tree_meets(constraints: &[Constraint], most_nodes: usize) -> bool {
    let variables = number_of_variables(constraints);
    (LEAST_NODES..=most_nodes).any(|nodes| {
        let mut trees: Vec<Tree> = ordered_shapes(nodes).iter().map(|shape| tree_of_shape(shape, Vec::new())).collect();
        assignments(variables, nodes).iter().any(|assignment| {
            let labels = asked_labels(constraints, assignment, nodes);
            trees.iter_mut().any(|tree| {
                tree.labels.clone_from(&labels);
                first_unmet(tree, assignment, constraints).is_none()
            })
        })
    })
}

/// For each node the last label asked of it, or blank. If any labelling meets the constraints, this one does: where two labels that are not
/// equal are asked of one node none does, nor where one is asked of the document node.
fn asked_labels(constraints: &[Constraint], assignment: &Assignment, nodes: usize) -> Vec<u8> {
    let mut labels = vec![0; nodes];
    for &constraint in constraints {
        if let Constraint::Label(x, label) = constraint {
            labels[assignment.node_of(x).0] = label;
        }
    }
    labels[DOCUMENT_NODE.0] = 0;
    labels
}

/// Every ordered tree of this many nodes whose elements have labels of these.
pub fn trees(nodes: usize, labels: &[u8]) -> Vec<Tree> {
    let labellings: Vec<Vec<u8>> =
        words(labels, nodes - 1).iter().map(|word| [&[0], word.as_slice()].concat()).collect();
    let labelled = |shape: Vec<Node>| labellings.iter().map(move |labels| tree_of_shape(&shape, labels.clone()));
    ordered_shapes(nodes).into_iter().flat_map(labelled).collect()
}

/// Every row of this many letters.
pub fn words<T: Copy>(letters: &[T], length: usize) -> Vec<Vec<T>> {
    (0..length).fold(vec![Vec::new()], |words, _| {
        words.iter().flat_map(|word| letters.iter().map(|&letter| [word.as_slice(), &[letter]].concat())).collect()
    })
}
