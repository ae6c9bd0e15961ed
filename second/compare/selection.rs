//! The theorem of request (i), run: the records written can be met if and only if some tree has a node that every line selects, by the
//! meaning in source 004, definition 2.3. The records are the second reader's, to which the archive is held byte by byte.

use crate::meaning::MORE_NODES;
use crate::{disagree, Comparison};
use questions::capitals::{capital, small};
use second::constraint::{self, number_of_variables, Constraint};
use second::path::{text_of, Path, Step, Test};
use second::select::{expression, selected_by_all, Expression};
use second::translate::{translate, END};
use second::tree::{first_unmet, Assignment, Node, Tree};
use second::verdict::{hex, SolverVerdict};
use second::{answer, brute, LEAST_BUFFER};
use std::collections::{BTreeMap, BTreeSet};
use std::sync::Arc;

const SORT: &str = "paths against definition 2.3";

/// The small trees by their number of nodes and their labels, made once.
#[derive(Default)]
pub struct SmallTrees(BTreeMap<(usize, Vec<u8>), Arc<Vec<Tree>>>);

impl SmallTrees {
    pub fn of(&mut self, nodes: usize, labels: &[u8]) -> Arc<Vec<Tree>> {
        self.0.entry((nodes, labels.to_vec())).or_insert_with(|| Arc::new(brute::trees(nodes, labels))).clone()
    }
}

/// How many texts were held to the definition, and in which way.
#[derive(Default)]
pub struct Selections {
    pub trees: u64,
    pub nones: u64,
    pub tree_by_tree: u64,
}

impl Comparison {
    /// What the solver says of the records, held to the definition: the node of variable 0 is selected in a tree that it finds, and where
    /// it says none no small tree has a node selected.
    pub fn hold_selection(&mut self, lines: &[Path], allowance: u32) {
        let records = translate(lines).records;
        let file = constraint::write(&records);
        if constraint::read(&file) != Ok(records.clone()) {
            disagree(SORT, &format!("the records are refused or read otherwise\n{}", shown(lines)));
        }
        match self.solve("records of paths solved", &file, LEAST_BUFFER, allowance) {
            SolverVerdict::Tree { answer: answer_file, .. } => {
                let (tree, assignment) = answer::read(&answer_file, number_of_variables(&records))
                    .unwrap_or_else(|_| disagree(SORT, "no answer file"));
                if !selected_by_all(&tree, &expressions(lines)).contains(&assignment.node_of(END)) {
                    let tree = hex(&answer_file);
                    disagree(SORT, &format!("variable 0 is not selected\n{}\nanswer {tree}", shown(lines)));
                }
                self.selections.trees += 1;
            }
            SolverVerdict::None { .. } => self.hold_none(lines, number_of_variables(&records)),
            SolverVerdict::Spent { .. } => {}
            SolverVerdict::Refused(_) => disagree(SORT, &format!("the records are refused\n{}", shown(lines))),
        }
    }

    /// Trees of up to n + 2 nodes, and of so many that they stay few, with the labels named and blanks.
    fn hold_none(&mut self, lines: &[Path], variables: usize) {
        let (labels, expressions) = (labels_of(lines), expressions(lines));
        let affordable = [8, 7, 6, 5][labels.len().min(4) - 1];
        let bound = variables + MORE_NODES;
        for nodes in brute::LEAST_NODES..=affordable.min(bound) {
            for tree in self.small_trees.of(nodes, &labels).iter() {
                if !selected_by_all(tree, &expressions).is_empty() {
                    let tree = hex(&answer::write(tree, &Assignment(Vec::new())));
                    disagree(SORT, &format!("none, yet a node is selected\n{}\ntree {tree}", shown(lines)));
                }
            }
        }
        if affordable >= bound {
            self.selections.nones += 1;
        }
    }

    /// More than the theorem asks: on each tree of up to so many nodes the lines select exactly the nodes on which variable 0 stands when
    /// the records are met. This tells a parent from a child where both can be met.
    pub fn hold_tree_by_tree(&mut self, lines: &[Path], most_nodes: usize) {
        self.hold_labelled_tree_by_tree(lines, most_nodes, &labels_of(lines));
    }

    /// The same, on trees whose elements have labels of these.
    pub fn hold_labelled_tree_by_tree(&mut self, lines: &[Path], most_nodes: usize, labels: &[u8]) {
        let (records, expressions) = (translate(lines).records, expressions(lines));
        for nodes in brute::LEAST_NODES..=most_nodes {
            for tree in self.small_trees.of(nodes, labels).iter() {
                let (selected, met) = (selected_by_all(tree, &expressions), ends_that_meet(tree, &records));
                if selected != met {
                    let tree = hex(&answer::write(tree, &Assignment(Vec::new())));
                    let how = format!("selected are {selected:?}, records are met with variable 0 on {met:?}");
                    disagree(SORT, &format!("{how}\n{}\ntree {tree}", shown(lines)));
                }
            }
        }
        self.selections.tree_by_tree += 1;
    }
}

fn expressions(lines: &[Path]) -> Vec<Expression> {
    lines.iter().map(expression).collect()
}

/// The nodes of variable 0 in the assignments that meet every record.
fn ends_that_meet(tree: &Tree, records: &[Constraint]) -> Vec<Node> {
    let nodes = tree.parents.len();
    let mut ends = vec![false; nodes];
    let mut assignment = Assignment(vec![Node(0); number_of_variables(records)]);
    loop {
        if first_unmet(tree, &assignment, records).is_none() {
            ends[assignment.node_of(END).0] = true;
        }
        if !next_assignment(&mut assignment, nodes) {
            return (0..nodes).filter(|&node| ends[node]).map(Node).collect();
        }
    }
}

/// Counts up, the first variable fastest; false after the last assignment.
fn next_assignment(assignment: &mut Assignment, nodes: usize) -> bool {
    for place in &mut assignment.0 {
        place.0 = (place.0 + 1) % nodes;
        if place.0 != 0 {
            return true;
        }
    }
    false
}

/// Blank and the letters named: a label that no line names could as well be blank. Where a capital is named, each letter in both cases.
fn labels_of(lines: &[Path]) -> Vec<u8> {
    fn of_step(step: &Step, labels: &mut BTreeSet<u8>) {
        if let Test::Letter(letter) = step.test {
            labels.insert(letter);
        }
        step.brackets.iter().flat_map(|path| &path.steps).for_each(|step| of_step(step, labels));
    }
    let mut labels = BTreeSet::from([0]);
    lines.iter().flat_map(|line| &line.steps).for_each(|step| of_step(step, &mut labels));
    if labels.iter().any(u8::is_ascii_uppercase) {
        labels = labels.into_iter().flat_map(|label| [small(label), capital(label)]).collect();
    }
    labels.into_iter().collect()
}

fn shown(lines: &[Path]) -> String {
    let records = translate(lines).records;
    format!("text {}records {}", String::from_utf8_lossy(&text_of(lines)), hex(&constraint::write(&records)))
}
