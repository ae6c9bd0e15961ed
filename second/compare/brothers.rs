//! Brothers in order (document 02, request (iii)): what of it came up in the second solver's searches, and what must.

use crate::Comparison;
use second::closure::Clash;
use second::constraint;
use second::search::{Join, Trace};
use second::tree::{Node, Tree};
use second::verdict::SolverVerdict;
use second::{answer, Refusal};

pub const BROTHERS: [&str; 8] = [
    "a tree by the first alternative of a third join",
    "a tree by the second alternative of a third join",
    "before(x,y) with below(x,y)",
    "before(x,y) with below(y,x)",
    "at one depth another order than by lowest variable",
    "kind 9 refused with 4",
    "kind 9 refused with 6",
    "kind 10 refused with 3",
];

impl Comparison {
    pub fn note_brothers(&mut self, file: &[u8], verdict: &SolverVerdict, trace: &Trace) {
        for &clash in &trace.clashes {
            match clash {
                Clash::LaterSiblingBelow => self.brothers.note("before(x,y) with below(x,y)"),
                Clash::EarlierSiblingBelow => self.brothers.note("before(x,y) with below(y,x)"),
                _ => {}
            }
        }
        for (join, alternative) in &trace.line {
            match (join, alternative) {
                (Join::Sibling { .. }, 0) => self.brothers.note("a tree by the first alternative of a third join"),
                (Join::Sibling { .. }, _) => self.brothers.note("a tree by the second alternative of a third join"),
                _ => {}
            }
        }
        match verdict {
            SolverVerdict::Tree { answer, .. } if !is_by_lowest_variable(answer) => {
                self.brothers.note("at one depth another order than by lowest variable");
            }
            SolverVerdict::Refused(Refusal(question @ 3..=6)) => {
                let bad = file.chunks(4).find(|record| constraint::read(record).is_err()).expect("a bad record");
                self.brothers.note_if_asked_for(&format!("kind {} refused with {question}", bad[0]));
            }
            _ => {}
        }
    }
}

/// Does the lowest variable rise from node to node wherever two in a row have one depth?
fn is_by_lowest_variable(answer_file: &[u8]) -> bool {
    let variables = answer_file.chunks(4).filter(|record| record[0] == 2).count();
    let (tree, assignment) = answer::read(answer_file, variables).expect("an answer of the second solver");
    let nodes: Vec<Node> = (0..tree.parents.len()).map(Node).collect();
    nodes.windows(2).all(|pair| {
        let have_one_depth = depth(&tree, pair[0]) == depth(&tree, pair[1]);
        !have_one_depth || assignment.lowest_variable_on(pair[0]) < assignment.lowest_variable_on(pair[1])
    })
}

fn depth(tree: &Tree, node: Node) -> usize {
    tree.parent(node).map_or(0, |parent| 1 + depth(tree, parent))
}
