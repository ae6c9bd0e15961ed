//! The document node, whatever the seed: every small set after a root and its child, and small answers whose node 0 is blank with one child
//! or is not.

use crate::small::{for_each_choice, plain_records};
use crate::{disagree, Comparison};
use second::constraint::{Constraint, Variable};
use second::verdict::{hex, MarkerVerdict, SolverVerdict};
use second::{Refusal, LEAST_BUFFER};

impl Comparison {
    pub fn all_small_documents(&mut self) {
        self.all_sets_after("sets of up to 3 after root(0), child(0,1), over 4 variables", Variable(0), Variable(1));
        self.all_sets_after("sets of up to 2 after root(3), child(3,2), over 4 variables", Variable(3), Variable(2));
        self.all_small_node_records();
        self.answer_buffers_at_the_limit();
    }

    /// Up to 3 more records where the root is the lowest variable, else up to 2.
    fn all_sets_after(&mut self, sort: &'static str, root: Variable, element: Variable) {
        let most = if root == Variable(0) { 3 } else { 2 };
        for size in 0..=most {
            for_each_choice(&plain_records(4), size, &mut Vec::new(), &mut |more| {
                let front = [Constraint::Root(root), Constraint::Child(root, element)];
                self.set(sort, &[&front, more].concat());
            });
        }
    }

    /// Questions 10 and 11: every 1 to 4 node records with own numbers from 0, parents up to 3 and label 0 or a on node 0.
    fn all_small_node_records(&mut self) {
        const SORT: &str = "every parent of up to 4 nodes, node 0 blank or not";
        for nodes in 1..=4_usize {
            for parents in 0..4_usize.pow(nodes as u32) {
                for label in [0, 97] {
                    let parent = |node: usize| (parents / 4_usize.pow(node as u32) % 4) as u8;
                    let record = |node: usize| [1, node as u8, parent(node), if node == 0 { label } else { 97 }];
                    let answer_file: Vec<u8> = (0..nodes).flat_map(record).collect();
                    let fits = |node: usize| match node {
                        0 => parent(0) == 0 && label == 0,
                        1 => parent(1) == 0,
                        _ => (1..node as u8).contains(&parent(node)),
                    };
                    let expected = match nodes {
                        1 => MarkerVerdict::Refused(Refusal(10)),
                        _ if (0..nodes).all(fits) => MarkerVerdict::Met,
                        _ => MarkerVerdict::Refused(Refusal(11)),
                    };
                    let said = self.mark(SORT, &[], &answer_file);
                    if said != expected {
                        disagree(SORT, &format!("{said}, by hand {expected}\nanswer {}", hex(&answer_file)));
                    }
                }
            }
        }
    }

    /// The longest answer there is, and the shortest.
    fn answer_buffers_at_the_limit(&mut self) {
        const SORT: &str = "answer buffers at the limit";
        for file in [&[][..], &[7, 15, 0, 0], &[6, 15, 0, 0], &[5, 0, 0, 0]] {
            for buffer in [0, 1, 131, 132, 133, 134, 135, 136, 137, 200] {
                let verdict = self.solve(SORT, file, buffer, 0);
                if (buffer < LEAST_BUFFER) != (verdict == SolverVerdict::Refused(Refusal(7))) {
                    disagree(SORT, &format!("{verdict} with {buffer} bytes"));
                }
            }
        }
    }
}
