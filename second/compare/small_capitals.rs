//! Capitals, whatever the seed: every two labels there are, on one variable and as asked and drawn; every small set, file and tree with
//! capitals, small letters and the bytes beside them; and the same damaged. What is expected of two labels is a rule of the comparison's own.

use crate::meaning::MORE_NODES;
use crate::rounds::Solved;
use crate::small::for_each_choice;
use crate::{disagree, Comparison};
use questions::capitals::small;
use second::constraint::{self, number_of_variables, Constraint, Variable};
use second::tree::{first_unmet, meets};
use second::verdict::{hex, MarkerVerdict, SolverVerdict};
use second::{answer, brute, Refusal, LEAST_BUFFER};

/// Both ends of the capitals and of the small letters, one more of each, and the bytes beside them.
pub const LABELS: [u8; 10] = [64, 65, 66, 90, 91, 96, 97, 98, 122, 123];
const BLANK_AND_LABELS: [u8; 11] = [0, 64, 65, 66, 90, 91, 96, 97, 98, 122, 123];

impl Comparison {
    pub fn all_small_capitals(&mut self) {
        self.every_two_labels();
        self.every_label_drawn();
        self.all_sets_of_labels();
        self.all_sets_of_labels_and_joins();
        self.all_sets_of_labels_on_one_element();
        self.labels_in_wrong_places();
    }

    /// label(0,a), label(0,b) of all labels: one node with the small letter, or none.
    fn every_two_labels(&mut self) {
        const SORT: &str = "every two labels on one variable";
        for a in 1..=255 {
            for b in 1..=255 {
                let file = [8, 0, 0, a, 8, 0, 0, b];
                let expected = if small(a) == small(b) {
                    SolverVerdict::Tree { count: 0, answer: vec![1, 0, 0, 0, 1, 1, 0, small(a), 2, 0, 1, 0] }
                } else {
                    SolverVerdict::None { count: 0 }
                };
                let said = self.solve(SORT, &file, LEAST_BUFFER, 0);
                if said != expected {
                    disagree(SORT, &format!("{said}, by the rule {expected}\nconstraints {}", hex(&file)));
                }
            }
        }
    }

    /// label(0,a) of all labels, to a node with each label.
    fn every_label_drawn(&mut self) {
        const SORT: &str = "every label drawn where each is asked";
        for asked in 1..=255 {
            for drawn in 0..=255 {
                let answer_file = [1, 0, 0, 0, 1, 1, 0, drawn, 2, 0, 1, 0];
                let expected = match small(asked) == small(drawn) {
                    true => MarkerVerdict::Met,
                    false => MarkerVerdict::Unmet { position: 0, kind: 8 },
                };
                self.hold_marked_by_rule(SORT, &[8, 0, 0, asked], &answer_file, expected);
            }
        }
    }

    fn hold_marked_by_rule(&mut self, sort: &'static str, file: &[u8], answer_file: &[u8], expected: MarkerVerdict) {
        let said = self.mark(sort, file, answer_file);
        if said != expected {
            let files = format!("constraints {}\nanswer {}", hex(file), hex(answer_file));
            disagree(sort, &format!("{said}, by the rule {expected}\n{files}"));
        }
    }

    /// Up to 3 records over 2 variables, held to every tree of up to 4 nodes with every labelling; then in every order, in another case, and
    /// marked as they are and from last to first.
    fn all_sets_of_labels(&mut self) {
        const SORT: &str = "sets of up to 3 with capitals over 2 variables";
        let [x, y] = [0, 1].map(Variable);
        let mut records =
            vec![Constraint::Same(x, y), Constraint::Child(x, y), Constraint::Root(x), Constraint::Root(y)];
        records.extend(LABELS.iter().flat_map(|&label| [Constraint::Label(x, label), Constraint::Label(y, label)]));
        for size in 1..=3 {
            for_each_choice(&records, size, &mut Vec::new(), &mut |constraints| {
                let solved = self.set_in_every_case(SORT, constraints);
                self.hold_labelled_trees(constraints, &solved.verdict, &BLANK_AND_LABELS);
                self.every_order("orders of up to 3 with capitals over 2 variables", &solved);
                self.all_labellings_marked(constraints);
                let reversed: Vec<Constraint> = constraints.iter().rev().copied().collect();
                if reversed != constraints {
                    self.all_labellings_marked(&reversed);
                }
            });
        }
    }

    /// Up to 4 records over 3 variables, in which two cases meet by one parent, by same, by a leaf, by a join or not at all; those of up to 3
    /// held to every tree of up to 5 nodes with every labelling.
    fn all_sets_of_labels_and_joins(&mut self) {
        const SORT: &str = "sets of up to 4 with capitals over 3 variables";
        let [x, y, z] = [0, 1, 2].map(Variable);
        let mut records = vec![Constraint::Child(x, z), Constraint::Child(y, z), Constraint::Below(x, z)];
        records.extend([Constraint::Below(y, z), Constraint::Same(x, y), Constraint::Same(y, z), Constraint::Root(x)]);
        records.extend([Constraint::Before(x, z), Constraint::Leaf(y)]);
        for label in [65, 97, 66] {
            records.extend([x, y, z].map(|variable| Constraint::Label(variable, label)));
        }
        for size in 1..=4 {
            for_each_choice(&records, size, &mut Vec::new(), &mut |constraints| {
                let solved = self.set_in_every_case(SORT, constraints);
                if size <= 3 {
                    self.hold_labelled_trees(constraints, &solved.verdict, &[0, 65, 66, 97]);
                }
            });
        }
    }

    /// Up to 3 records after a root and its child that is a leaf: another variable with a label is on that child, by a fourth join, or nowhere.
    fn all_sets_of_labels_on_one_element(&mut self) {
        const SORT: &str = "sets of up to 3 with capitals after root(0), child(0,1), leaf(1)";
        let [root, element, x, y] = [0, 1, 2, 3].map(Variable);
        let front = [Constraint::Root(root), Constraint::Child(root, element), Constraint::Leaf(element)];
        let mut records = vec![Constraint::Differ(element, x), Constraint::Below(x, y), Constraint::Same(x, root)];
        for label in [65, 97, 98] {
            records.extend([element, x, y].map(|variable| Constraint::Label(variable, label)));
        }
        for size in 1..=3 {
            for_each_choice(&records, size, &mut Vec::new(), &mut |more| {
                self.set_in_every_case(SORT, &[&front, more].concat());
            });
        }
    }

    /// Held to all small trees and to the allowances around the count; then with its letters small, and as capitals.
    fn set_in_every_case(&mut self, sort: &'static str, constraints: &[Constraint]) -> Solved {
        let solved = self.set(sort, constraints);
        self.hold_small_and_capital("sets with capitals in another case", &solved);
        solved
    }

    /// A tree that meets exists, among all that are labelled with these, exactly where the verdict is a tree.
    fn hold_labelled_trees(&mut self, constraints: &[Constraint], verdict: &SolverVerdict, labels: &[u8]) {
        let variables = number_of_variables(constraints);
        let one_meets = (brute::LEAST_NODES..=variables + MORE_NODES).any(|nodes| {
            let assignments = brute::assignments(variables, nodes);
            let trees = self.small_trees.of(nodes, labels);
            let mut pairs = trees.iter().flat_map(|tree| assignments.iter().map(move |assignment| (tree, assignment)));
            pairs.any(|(tree, assignment)| first_unmet(tree, assignment, constraints).is_none())
        });
        if one_meets != matches!(verdict, SolverVerdict::Tree { .. }) {
            let file = constraint::write(constraints);
            disagree(
                "all labelled trees",
                &format!("{verdict}, a tree meets: {one_meets}\nconstraints {}", hex(&file)),
            );
        }
        self.against_all_small_trees += 1;
    }

    /// Every tree of 2 and 3 nodes with every labelling and assignment: the first record is unmet that is so where labels are compared by the
    /// comparison's own rule.
    fn all_labellings_marked(&mut self, constraints: &[Constraint]) {
        let file = constraint::write(constraints);
        for nodes in [2, 3] {
            for assignment in brute::assignments(number_of_variables(constraints), nodes) {
                for tree in self.small_trees.of(nodes, &BLANK_AND_LABELS).iter() {
                    let is_unmet = |&record: &Constraint| match record {
                        Constraint::Label(x, label) => small(tree.label(assignment.node_of(x))) != small(label),
                        other => !meets(tree, &assignment, other),
                    };
                    let expected = match constraints.iter().position(is_unmet) {
                        Some(position) => MarkerVerdict::Unmet { position, kind: constraints[position].kind() },
                        None => MarkerVerdict::Met,
                    };
                    let answer_file = answer::write(tree, &assignment);
                    self.hold_marked_by_rule("every labelling of 2 and 3 nodes", &file, &answer_file, expected);
                }
            }
        }
    }

    /// A capital is no excuse: where no label stands it is refused as any other byte is, and node 0 is blank.
    fn labels_in_wrong_places(&mut self) {
        const SORT: &str = "capitals and small letters in wrong places";
        let tree = [1, 0, 0, 0, 1, 1, 0, 65, 1, 2, 1, 97, 2, 0, 1, 0, 2, 1, 2, 0];
        for byte in LABELS {
            for (kind, y) in (0..=10).flat_map(|kind| [0, 1, 16, 65].map(|y| (kind, y))) {
                let file = [8, 0, 0, 65, kind, 0, y, byte];
                self.solve(SORT, &file, LEAST_BUFFER, 1);
                self.mark(SORT, &file, &tree);
            }
            for at in 0..tree.len() {
                let mut changed = tree;
                changed[at] = byte;
                self.mark(SORT, &[8, 0, 0, 97, 8, 1, 0, 65], &changed);
            }
            let labelled_document = [1, 0, 0, byte, 1, 1, 0, 0];
            self.hold_marked_by_rule(SORT, &[], &labelled_document, MarkerVerdict::Refused(Refusal(11)));
        }
    }
}
