//! The tree of a settled set with neither clash nor join.

use crate::closure::Settled;
use crate::constraint::Variable;
use crate::label::folded;
use crate::tree::{Assignment, Node, Tree, DOCUMENT_NODE};

/// A group of same variables, named by its lowest one.
type Group = Variable;

fn group_of(settled: &Settled, x: Variable) -> Group {
    let mates = settled.variables.iter().copied().filter(|&y| settled.same(x, y));
    mates.min().expect("a variable is the same as itself")
}

fn groups(settled: &Settled) -> Vec<Group> {
    settled.variables.iter().copied().filter(|&x| group_of(settled, x) == x).collect()
}

fn groups_properly_above(settled: &Settled, group: Group) -> Vec<Group> {
    groups(settled).into_iter().filter(|&above| above != group && settled.below(above, group)).collect()
}

/// The nearest group above: the one that every group above is at or above of.
fn parent_group(settled: &Settled, group: Group) -> Option<Group> {
    let above = groups_properly_above(settled, group);
    above.iter().copied().find(|&nearest| above.iter().all(|&other| settled.below(other, nearest)))
}

/// The groups in the order of their nodes: by depth, which is the number of groups above, since these form a chain; at one depth the next is
/// the lowest of those with no stated earlier sibling that still waits.
fn in_order_of_nodes(settled: &Settled) -> Vec<Group> {
    let with_depth = |group: Group| (groups_properly_above(settled, group).len(), group);
    let mut waiting: Vec<(usize, Group)> = groups(settled).into_iter().map(with_depth).collect();
    waiting.sort();
    let mut ordered = Vec::new();
    while let Some(&(least, _)) = waiting.first() {
        let is_next = |&(depth, group): &(usize, Group)| {
            depth == least && !waiting.iter().any(|&(_, earlier)| settled.before(earlier, group))
        };
        let next = waiting.iter().position(is_next).expect("before goes round in no ring");
        ordered.push(waiting.remove(next).1);
    }
    ordered
}

/// A document node is added where no variable is root; unless exactly one group stands next under it, a blank element does, over those.
pub fn read_off(settled: &Settled) -> (Tree, Assignment) {
    let (roots, groups): (Vec<Group>, Vec<Group>) =
        in_order_of_nodes(settled).into_iter().partition(|&group| settled.is_root(group));
    assert!(roots.len() <= 1, "each root is above the others");
    let parent_element = |group: Group| parent_group(settled, group).filter(|above| !roots.contains(above));
    let next_under = groups.iter().filter(|&&group| parent_element(group).is_none()).count();

    let mut tree = Tree { parents: vec![None], labels: vec![0] };
    if next_under != 1 {
        tree.parents.push(Some(DOCUMENT_NODE));
        tree.labels.push(0);
    }
    let first = tree.parents.len();
    let over_all_groups = Node(first - 1);
    let number_of = |group: Group| groups.iter().position(|&other| other == group).map(|at| Node(first + at));
    let node_of = |group: Group| number_of(group).unwrap_or(DOCUMENT_NODE);
    for &group in &groups {
        tree.parents.push(Some(parent_element(group).map_or(over_all_groups, node_of)));
        // Whichever case the records have, the tree carries the small letter.
        tree.labels.push(settled.label(group).map_or(0, folded));
    }
    let places = settled.variables.iter().map(|&x| node_of(group_of(settled, x)));
    let assignment = Assignment(places.collect());
    (tree, assignment)
}
