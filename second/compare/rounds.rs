//! Random questions, and all that is asked about each.

use crate::{disagree, Comparison};
use questions::capitals::crowded_letters;
use questions::document::{crowded_document, with_document};
use questions::overlap::crowded_chain;
use questions::{
    crowded_path, crowded_siblings, free, planted, random_assignment, random_constraint, random_tree, Mix,
};
use second::constraint::{self, number_of_variables, Constraint};
use second::tree::{Assignment, Tree};
use second::verdict::{hex, SolverVerdict};
use second::{Refusal, LEAST_BUFFER};

/// What the second solver says, and under which conditions.
pub struct Solved {
    pub file: Vec<u8>,
    pub allowance: u32,
    pub verdict: SolverVerdict,
}

impl Solved {
    /// The same question spent, where there are choices.
    pub fn with_one_choice_too_few(&self) -> Option<Solved> {
        match self.verdict {
            SolverVerdict::Tree { count: count @ 1.., .. } | SolverVerdict::None { count: count @ 1.. } => {
                let (allowance, verdict) = (count - 1, SolverVerdict::Spent { count: count - 1 });
                Some(Solved { file: self.file.clone(), allowance, verdict })
            }
            _ => None,
        }
    }
}

/// A random question.
struct Drawn {
    sort: &'static str,
    constraints: Vec<Constraint>,
    tree: Tree,
    assignment: Assignment,
}

impl Comparison {
    /// One random question and all that is asked about it.
    pub fn round(&mut self) {
        let Drawn { sort, constraints, tree, assignment } = self.random_question();
        let allowance = self.affordable(number_of_variables(&constraints));
        let file = constraint::write(&constraints);
        let (verdict, trace) = self.solve_traced(sort, &file, LEAST_BUFFER, allowance);
        if let SolverVerdict::Tree { count, .. } | SolverVerdict::None { count } = verdict {
            *self.counts.entry(count.to_string().len()).or_default() += 1;
        }
        if sort == "planted questions" && matches!(verdict, SolverVerdict::None { .. }) {
            disagree(sort, &format!("none, yet the planted tree meets\nconstraints {}", hex(&file)));
        }
        self.check_some_meanings(&constraints, &verdict);
        let solved = Solved { file, allowance, verdict };
        self.allowances(&solved);
        if trace.second_of_chain > 0 {
            self.solved_by_both_rules(&solved);
        }
        self.buffers(&solved);
        self.doubled(&solved, &constraints);
        self.solved_in_another_order(&solved);
        self.solved_in_other_case(&solved);
        self.solved_with_other_numbers(&solved, number_of_variables(&constraints));
        self.split_question(&solved.file);
        self.damaged(&solved);
        self.solution_as_xml(&solved.verdict);
        self.answers(&solved, &constraints, &tree, &assignment);
    }

    /// A question, and the tree and assignment that it may have been drawn for.
    fn random_question(&mut self) -> Drawn {
        let variables = 1 + self.random.below(16);
        let records = match self.random.below(10) {
            0 => self.random.below(257),
            1 | 2 => self.random.below(8),
            _ => self.random.below(3 * variables + 2),
        };
        let mix = Mix::random(&mut self.random);
        let number_of_nodes = 2 + self.random.below(variables + 3);
        let tree = random_tree(&mut self.random, number_of_nodes);
        let assignment = random_assignment(&mut self.random, variables, &tree);
        let (sort, constraints) = match self.random.below(20) {
            0 if self.random.one_in(2) => ("crowded paths", crowded_path(&mut self.random)),
            0 => ("crowded siblings", crowded_siblings(&mut self.random)),
            1 => ("crowded documents", crowded_document(&mut self.random)),
            2 => ("crowded letters", crowded_letters(&mut self.random)),
            3 => {
                let mut constraints = planted(&mut self.random, &tree, &assignment, records.min(250), &mix);
                with_document(&mut self.random, &mut constraints, variables, &mix);
                ("questions with a root in front", constraints)
            }
            4..=10 => ("planted questions", planted(&mut self.random, &tree, &assignment, records, &mix)),
            11..=14 => {
                let mut constraints = planted(&mut self.random, &tree, &assignment, records.min(254), &mix);
                for _ in 0..1 + self.random.below(2) {
                    let at = self.random.below(constraints.len() + 1);
                    constraints.insert(at, random_constraint(&mut self.random, variables, &mix));
                }
                ("nearly planted questions", constraints)
            }
            15 => ("crowded chains", crowded_chain(&mut self.random)),
            _ => ("free questions", free(&mut self.random, variables, records, &mix)),
        };
        Drawn { sort, constraints, tree, assignment }
    }

    /// Every fourth verdict on few variables, against trees of so many nodes that they stay few.
    pub fn check_some_meanings(&mut self, constraints: &[Constraint], verdict: &SolverVerdict) {
        let most_nodes = [8, 8, 7, 7, 6, 7].get(number_of_variables(constraints));
        if let Some(&most_nodes) = most_nodes.filter(|_| self.random.one_in(4)) {
            self.check_meaning(constraints, verdict, most_nodes);
        }
    }

    /// An allowance that keeps one naive search well below a second; now and then a larger one.
    fn affordable(&mut self, variables: usize) -> u32 {
        let usual = match variables {
            0..=6 => 2_000,
            7..=10 => 400,
            _ => 60,
        };
        if self.random.one_in(50) {
            10 * usual
        } else {
            usual
        }
    }

    pub fn allowances(&mut self, solved: &Solved) {
        const SORT: &str = "allowances around the count";
        let count = match solved.verdict {
            SolverVerdict::Tree { count, .. } | SolverVerdict::None { count } => count,
            SolverVerdict::Spent { count } => {
                for allowance in [0, 1, count / 2] {
                    self.solve(SORT, &solved.file, LEAST_BUFFER, allowance);
                }
                return;
            }
            SolverVerdict::Refused(_) => return,
        };
        for allowance in [0, count.saturating_sub(1), count] {
            self.solve(SORT, &solved.file, LEAST_BUFFER, allowance);
        }
        // A larger allowance never changes a tree or a none.
        for allowance in [count + 1, u32::MAX] {
            self.hold_solver(SORT, &solved.file, LEAST_BUFFER, allowance, &solved.verdict);
        }
    }

    fn buffers(&mut self, solved: &Solved) {
        for buffer in [0, 1, 135] {
            self.solve("answer buffers", &solved.file, buffer, solved.allowance);
        }
        for buffer in [136, 137, 200] {
            self.hold_solver("answer buffers", &solved.file, buffer, solved.allowance, &solved.verdict);
        }
    }

    /// Verdict, count and bytes depend on the set of records alone.
    fn doubled(&mut self, solved: &Solved, constraints: &[Constraint]) {
        let mut doubled = constraints.to_vec();
        while !constraints.is_empty() && doubled.len() < 256 && !self.random.one_in(4) {
            let at = self.random.below(doubled.len() + 1);
            doubled.insert(at, self.random.pick(constraints));
        }
        let file = constraint::write(&doubled);
        self.hold_solver("questions with doubled records", &file, LEAST_BUFFER, solved.allowance, &solved.verdict);
    }

    fn damaged(&mut self, solved: &Solved) {
        for _ in 0..6 {
            let file = self.damage(&solved.file);
            let buffer = self.random.pick(&[0, 1, 135, 136, 137, 200]);
            let allowance = solved.allowance.min(60);
            let verdict = self.solve("damaged questions", &file, buffer, allowance);
            if let SolverVerdict::Refused(refusal @ Refusal(1 | 3..=6)) = verdict {
                self.refused_in_another_order(&file, refusal);
            }
            let damaged = Solved { file, allowance, verdict };
            self.damaged_in_other_case(&damaged, buffer);
            self.damaged_by_both_rules(&damaged, buffer);
            self.split_damaged(&damaged.file);
            let answer_file = match &solved.verdict {
                SolverVerdict::Tree { answer, .. } => answer.clone(),
                _ => vec![1, 0, 0, 0, 1, 1, 0, 0],
            };
            let answer_length = self.random.pick(&[answer_file.len(), answer_file.len() - 1, 0]);
            self.mark("damaged questions", &damaged.file, &answer_file[..answer_length]);
        }
    }

    /// Damage for each of questions 1 to 6, one or two at a time, so that their order shows.
    fn damage(&mut self, file: &[u8]) -> Vec<u8> {
        let mut bytes = file.to_vec();
        if bytes.is_empty() {
            bytes.extend([2, 0, 0, 0]);
        }
        for _ in 0..1 + self.random.below(2) {
            let record = 4 * self.random.below(bytes.len() / 4);
            match self.random.below(8) {
                0 => {
                    let length = self.random.pick(&[1020, 1023, 1024, 1025, 1028, 1200, 2048, 70_000]);
                    bytes = bytes.iter().copied().cycle().take(length).collect();
                }
                1 => {
                    let length = bytes.len() + self.random.below(4);
                    bytes.resize(length, 0);
                }
                2 => bytes[record] = self.random.pick(&[0, 9, 10, 16, 128, 255]),
                3 => bytes[record + 1] = self.random.pick(&[15, 16, 17, 31, 128, 255]),
                4 => bytes[record + 2] = self.random.pick(&[1, 15, 16, 17, 31, 128, 255]),
                5 => bytes[record + 3] = self.random.pick(&[0, 1, 65, 97, 128, 255]),
                6 => {
                    bytes[record] = 8;
                    bytes[record + 3] = 0;
                }
                _ => {
                    let at = self.random.below(bytes.len());
                    bytes[at] = self.random.byte();
                }
            }
        }
        bytes
    }
}
