//! Shuffled papers that are compared whatever the seed: every order and every renumbering of the small questions, every order of small
//! refused files, and small answers to two records in both orders.

use crate::rounds::Solved;
use crate::small::{all_records, for_each_choice, joining_records, sibling_records};
use crate::Comparison;
use questions::has_siblings;
use questions::shuffle::{in_order, permutations, renumbered};
use second::constraint::{self, number_of_variables, Constraint};
use second::verdict::SolverVerdict;
use second::{answer, brute, LEAST_BUFFER};
use std::collections::BTreeSet;

impl Comparison {
    pub fn all_small_shuffles(&mut self) {
        self.all_shuffles_of(
            ["orders of up to 3 records over 2 variables", "renumberings of up to 3 records over 2 variables"],
            &all_records(2),
            |_| true,
        );
        self.all_shuffles_of(
            ["orders of up to 3 records over 3 variables", "renumberings of up to 3 records over 3 variables"],
            &all_records(3),
            |_| true,
        );
        self.all_shuffles_of(
            ["orders of up to 3 joining records over 4", "renumberings of up to 3 joining records over 4"],
            &joining_records(4),
            |_| true,
        );
        self.all_shuffles_of(
            ["orders of up to 3 records with siblings over 4", "renumberings of up to 3 records with siblings over 4"],
            &sibling_records(4),
            has_siblings,
        );
        self.all_numbers_of_third_joins();
        self.all_numbers_of_fourth_joins();
        self.all_orders_of_bad_records();
        self.all_small_answers_in_both_orders();
    }

    /// Every set of up to 3 of the records that is chosen.
    fn all_shuffles_of(
        &mut self,
        [orders, renumberings]: [&'static str; 2],
        records: &[Constraint],
        is_chosen: fn(&[Constraint]) -> bool,
    ) {
        for size in 1..=3 {
            for_each_choice(records, size, &mut Vec::new(), &mut |constraints| {
                if !is_chosen(constraints) {
                    return;
                }
                let file = constraint::write(constraints);
                let verdict = second::solve(&file, LEAST_BUFFER, u32::MAX);
                let solved = Solved { file, allowance: u32::MAX, verdict };
                self.every_order(orders, &solved);
                for numbers in permutations(number_of_variables(constraints)) {
                    if renumbered(&solved.file, &numbers) != solved.file {
                        self.hold_small_renumbering(renumberings, &solved, &numbers);
                    }
                }
            });
        }
    }

    /// The order of third joins by y, then a, then x shows where two variables are above y and y has two siblings: of such questions every
    /// renumbering.
    fn all_numbers_of_third_joins(&mut self) {
        let questions: [&[[u8; 4]]; 4] = [
            &[[2, 1, 2, 0], [3, 2, 0, 0], [9, 0, 3, 0], [9, 0, 4, 0], [9, 2, 3, 0]],
            &[[2, 1, 2, 0], [2, 2, 0, 0], [9, 0, 3, 0], [9, 4, 0, 0]],
            &[[2, 1, 2, 0], [3, 0, 2, 0], [2, 4, 2, 0], [9, 0, 3, 0], [9, 2, 3, 0]],
            &[[1, 0, 1, 0], [2, 2, 1, 0], [9, 3, 4, 0], [2, 1, 3, 0], [2, 2, 4, 0]],
        ];
        self.all_numbers_of("renumberings of questions with third joins", &questions);
    }

    /// The order of fourth joins by w, and after all other joins, shows where one w is above another, or a w takes part in another join.
    fn all_numbers_of_fourth_joins(&mut self) {
        let questions: [&[[u8; 4]]; 6] = [
            &[[6, 0, 0, 0], [1, 0, 1, 0], [2, 2, 3, 0], [2, 3, 4, 0]],
            &[[6, 0, 0, 0], [1, 0, 1, 0], [2, 2, 4, 0], [2, 3, 4, 0]],
            &[[6, 0, 0, 0], [1, 0, 1, 0], [2, 2, 3, 0], [9, 3, 4, 0]],
            &[[6, 0, 0, 0], [1, 0, 1, 0], [7, 1, 0, 0], [5, 1, 2, 0], [5, 2, 3, 0], [5, 1, 3, 0], [2, 3, 4, 0]],
            &[[6, 0, 0, 0], [1, 0, 1, 0], [7, 1, 0, 0], [1, 2, 3, 0], [8, 4, 0, 97]],
            &[[6, 0, 0, 0], [6, 1, 0, 0], [1, 0, 2, 0], [1, 1, 3, 0], [7, 4, 0, 0]],
        ];
        self.all_numbers_of("renumberings of questions with fourth joins", &questions);
    }

    /// Over 5 variables.
    fn all_numbers_of(&mut self, sort: &'static str, questions: &[&[[u8; 4]]]) {
        for question in questions {
            let file = question.concat();
            let verdict = second::solve(&file, LEAST_BUFFER, u32::MAX);
            let solved = Solved { file, allowance: u32::MAX, verdict };
            for numbers in permutations(5) {
                self.hold_renumbered(sort, &solved, &numbers);
            }
        }
    }

    /// Where the counts differ, with the smaller as well: one of the two is then spent.
    fn hold_small_renumbering(&mut self, sort: &'static str, solved: &Solved, numbers: &[usize]) {
        let other = self.hold_renumbered(sort, solved, numbers);
        let smaller = count_of(&solved.verdict).min(count_of(&other.verdict));
        if count_of(&solved.verdict) != count_of(&other.verdict) {
            let verdict = second::solve(&solved.file, LEAST_BUFFER, smaller);
            let solved = Solved { file: solved.file.clone(), allowance: smaller, verdict };
            self.hold_renumbered(sort, &solved, numbers);
        }
    }

    /// Where there are choices, with one too few as well.
    pub fn every_order(&mut self, sort: &'static str, solved: &Solved) {
        let spent = solved.with_one_choice_too_few();
        for other in other_orders(&solved.file) {
            self.hold_reordered(sort, solved, &other);
            if let Some(spent) = &spent {
                self.hold_reordered(sort, spent, &other);
            }
        }
    }

    /// Up to 4 records, good ones and some for each of questions 3 to 6.
    fn all_orders_of_bad_records(&mut self) {
        const RECORDS: [[u8; 4]; 10] = [
            [1, 0, 1, 0],
            [8, 0, 0, 97],
            [0, 16, 0, 0],
            [9, 0, 0, 1],
            [7, 16, 1, 0],
            [8, 0, 1, 0],
            [6, 0, 16, 0],
            [5, 0, 1, 97],
            [9, 0, 16, 0],
            [10, 0, 0, 0],
        ];
        for size in 1..=4 {
            for_each_choice(&RECORDS, size, &mut Vec::new(), &mut |records| {
                let file = records.concat();
                if let Err(refusal) = constraint::read(&file) {
                    for other in other_orders(&file) {
                        self.hold_refused("orders of up to 4 good and bad records", refusal, &other);
                    }
                }
            });
        }
    }

    /// Every tree of up to 4 nodes with every assignment, to every two records over 2 variables.
    fn all_small_answers_in_both_orders(&mut self) {
        const SORT: &str = "small answers to two records in both orders";
        for nodes in brute::LEAST_NODES..=4 {
            for shape in brute::shapes(nodes) {
                // The document node, each label that the records name, and a blank.
                let tree = brute::tree_of_shape(&shape, [0, 97, 98, 0][..nodes].to_vec());
                for_each_choice(&all_records(2), 2, &mut Vec::new(), &mut |pair| {
                    let file = constraint::write(pair);
                    for assignment in brute::assignments(number_of_variables(pair), nodes) {
                        let answer_file = answer::write(&tree, &assignment);
                        self.mark(SORT, &file, &answer_file);
                        for other in other_orders(&file) {
                            self.hold_marked(SORT, &file, &answer_file, &other);
                        }
                    }
                });
            }
        }
    }
}

/// Of a search that has come to its end.
fn count_of(verdict: &SolverVerdict) -> u32 {
    match *verdict {
        SolverVerdict::Tree { count, .. } | SolverVerdict::None { count } => count,
        SolverVerdict::Spent { .. } | SolverVerdict::Refused(_) => panic!("no end"),
    }
}

/// The other files with the same records.
fn other_orders(file: &[u8]) -> BTreeSet<Vec<u8>> {
    let mut files: BTreeSet<Vec<u8>> = permutations(file.len() / 4).iter().map(|order| in_order(file, order)).collect();
    files.remove(file);
    files
}
