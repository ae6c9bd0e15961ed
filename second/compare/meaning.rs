//! The second solver's verdicts held to the meaning itself: to every small tree.

use crate::{disagree, Comparison};
use second::constraint::{self, number_of_variables, Constraint};
use second::verdict::{hex, MarkerVerdict, SolverVerdict};
use second::{answer, brute};
use std::collections::BTreeSet;

/// A tree that is read off has at most so many nodes more than there are variables: "the bound becomes n + 2 nodes".
pub const MORE_NODES: usize = 2;

/// The trees that verdicts are held against are all there: without labels there are as many ordered trees below the document node as
/// Catalan's numbers say, of 2 to 8 nodes with it.
pub fn all_ordered_trees() {
    for (trees, nodes) in [1, 1, 2, 5, 14, 42, 132].into_iter().zip(2..) {
        let made = brute::ordered_shapes(nodes).iter().collect::<BTreeSet<_>>().len();
        if made != trees {
            disagree("all small trees", &format!("{made} ordered trees of {nodes} nodes, expected {trees}"));
        }
    }
}

impl Comparison {
    /// The second solver's verdict against every tree of at most `most_nodes` nodes, and its tree against the marker.
    pub fn check_meaning(&mut self, constraints: &[Constraint], verdict: &SolverVerdict, most_nodes: usize) {
        const SORT: &str = "verdicts against all small trees";
        let file = constraint::write(constraints);
        let variables = number_of_variables(constraints);
        match verdict {
            SolverVerdict::None { .. } => {
                if brute::some_tree_meets(constraints, most_nodes) {
                    disagree(SORT, &format!("second says none, yet a tree meets\nconstraints {}", hex(&file)));
                }
            }
            SolverVerdict::Tree { answer: answer_file, .. } => {
                let (drawn, _) =
                    answer::read(answer_file, variables).unwrap_or_else(|_| disagree(SORT, "no answer file"));
                let bound = variables + MORE_NODES;
                if drawn.parents.len() > bound || !brute::some_tree_meets(constraints, bound) {
                    disagree(SORT, &format!("a tree of the wrong size\nconstraints {}", hex(&file)));
                }
                if self.mark("solver's trees marked", &file, answer_file) != MarkerVerdict::Met {
                    disagree(SORT, &format!("second's tree is not met\nconstraints {}", hex(&file)));
                }
            }
            SolverVerdict::Spent { .. } | SolverVerdict::Refused(_) => return,
        }
        self.against_all_small_trees += 1;
    }
}
