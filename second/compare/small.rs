//! What is compared whatever the seed: empty files, long answers, and all small questions and answers.

use crate::meaning::MORE_NODES;
use crate::rounds::Solved;
use crate::Comparison;
use questions::has_siblings;
use second::constraint::{self, number_of_variables, Constraint, Variable};
use second::verdict::SolverVerdict;
use second::{answer, brute, LEAST_BUFFER};

impl Comparison {
    pub fn empty_files(&mut self) {
        for buffer in [0, 1, 135, 136, 137, 200] {
            for allowance in [0, 1, u32::MAX] {
                self.solve("empty files", &[], buffer, allowance);
            }
        }
        let one_node = [1, 0, 0, 0];
        let two_nodes = [1, 0, 0, 0, 1, 1, 0, 0];
        for file in [&[][..], &[6, 0, 0, 0]] {
            for answer_file in [&[][..], &one_node, &two_nodes] {
                self.mark("empty files", file, answer_file);
            }
        }
    }

    /// Counts of records that a byte cannot hold.
    pub fn long_answers(&mut self) {
        for file in [&[][..], &[1, 0, 1, 0], &[7, 2, 0, 0]] {
            for nodes in [0, 1, 2, 63, 64, 65, 128, 255, 256, 257, 258, 320, 20_000] {
                for places in [0, 1, 2, 3, 255, 256, 257, 258, 259, 20_000] {
                    let mut answer_file = Vec::new();
                    for node in 0..nodes {
                        answer_file.extend([1, node as u8, (node as u8).saturating_sub(1), 0]);
                    }
                    for variable in 0..places {
                        answer_file.extend([2, variable as u8, 0, 0]);
                    }
                    self.mark("long answers", file, &answer_file);
                }
            }
        }
    }

    pub fn all_small_questions(&mut self) {
        self.all_sets_of("sets of up to 4 of all records over 2 variables", &all_records(2), 4);
        self.all_sets_of("sets of up to 3 of all records over 3 variables", &all_records(3), 3);
        self.all_sets_of("sets of up to 4 of the plain records over 3 variables", &plain_records(3), 4);
        self.all_sets_of("sets of up to 5 of the joining records over 3 variables", &joining_records(3), 5);
        self.all_sets_of("sets of up to 4 of the joining records over 4 variables", &joining_records(4), 4);
        self.all_sets_with_siblings("sets of up to 5 with siblings over 3 variables", &sibling_records(3), 5);
        self.all_sets_with_siblings("sets of up to 4 with siblings over 4 variables", &sibling_records(4), 4);
    }

    fn all_sets_of(&mut self, sort: &'static str, records: &[Constraint], most: usize) {
        self.all_chosen_sets_of(sort, records, most, |_| true);
    }

    /// Those without a before are among the others.
    fn all_sets_with_siblings(&mut self, sort: &'static str, records: &[Constraint], most: usize) {
        self.all_chosen_sets_of(sort, records, most, has_siblings);
    }

    /// Smaller sets first, so that the first disagreement is a small one.
    fn all_chosen_sets_of(
        &mut self,
        sort: &'static str,
        records: &[Constraint],
        most: usize,
        is_chosen: fn(&[Constraint]) -> bool,
    ) {
        for size in 0..=most {
            for_each_choice(records, size, &mut Vec::new(), &mut |constraints| {
                if !is_chosen(constraints) {
                    return;
                }
                self.set(sort, constraints);
            });
        }
    }

    /// One question, its verdict against all small trees, and the allowances around its count.
    pub fn set(&mut self, sort: &'static str, constraints: &[Constraint]) -> Solved {
        let file = constraint::write(constraints);
        let verdict = self.solve(sort, &file, LEAST_BUFFER, u32::MAX);
        self.check_meaning(constraints, &verdict, number_of_variables(constraints) + MORE_NODES);
        let solved = Solved { file, allowance: u32::MAX, verdict };
        if let SolverVerdict::Tree { count: 1.., .. } | SolverVerdict::None { count: 1.. } = solved.verdict {
            self.allowances(&solved);
        }
        solved
    }

    /// Every tree of up to 5 nodes, every assignment of 3 variables, every single record.
    pub fn all_small_answers(&mut self) {
        let records = all_records(3);
        for nodes in brute::LEAST_NODES..=5 {
            for shape in brute::shapes(nodes) {
                // The document node, each label that the records name, and a blank.
                let labels = [0, 97, 98, 0, 97][..nodes].to_vec();
                let tree = brute::tree_of_shape(&shape, labels);
                for &record in &records {
                    let variables = number_of_variables(&[record]);
                    for assignment in brute::assignments(variables, nodes) {
                        let answer_file = answer::write(&tree, &assignment);
                        self.mark("all small answers to single records", &record.record(), &answer_file);
                    }
                }
            }
        }
    }
}

/// Every record over these variables, with labels 97 and 98.
pub fn all_records(variables: u8) -> Vec<Constraint> {
    let mut records = Vec::new();
    for x in (0..variables).map(Variable) {
        for y in (0..variables).map(Variable) {
            records.extend([Constraint::Child(x, y), Constraint::Below(x, y), Constraint::StrictlyBelow(x, y)]);
            records.extend([Constraint::Same(x, y), Constraint::Differ(x, y), Constraint::Before(x, y)]);
        }
        records.extend([Constraint::Root(x), Constraint::Leaf(x), Constraint::Label(x, 97), Constraint::Label(x, 98)]);
    }
    records
}

/// Without x = y and without the mirror images of same and differ.
pub fn plain_records(variables: u8) -> Vec<Constraint> {
    let is_plain = |&record: &Constraint| match record {
        Constraint::Child(x, y) | Constraint::Below(x, y) | Constraint::StrictlyBelow(x, y) => x != y,
        Constraint::Before(x, y) => x != y,
        Constraint::Same(x, y) | Constraint::Differ(x, y) => x < y,
        _ => true,
    };
    all_records(variables).into_iter().filter(is_plain).collect()
}

/// The plain records of the kinds that make and decide the joins of document 01; the other kinds are made of these, labels, or before.
pub fn joining_records(variables: u8) -> Vec<Constraint> {
    let joins = |record: &Constraint| [1, 2, 5, 6, 7].contains(&record.kind());
    plain_records(variables).into_iter().filter(joins).collect()
}

/// Before, and the kinds that stand in the rules of before and in the third join.
pub fn sibling_records(variables: u8) -> Vec<Constraint> {
    let is_sibling = |record: &Constraint| [1, 2, 9].contains(&record.kind());
    plain_records(variables).into_iter().filter(is_sibling).collect()
}

/// Visits every choice of `size` of the records, repeats included, order left out.
pub fn for_each_choice<T: Copy>(records: &[T], size: usize, chosen: &mut Vec<T>, visit: &mut dyn FnMut(&[T])) {
    if size == 0 {
        return visit(chosen);
    }
    for (at, &record) in records.iter().enumerate() {
        chosen.push(record);
        for_each_choice(&records[at..], size - 1, chosen, visit);
        chosen.pop();
    }
}
