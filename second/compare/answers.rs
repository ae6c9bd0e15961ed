//! Answers to random questions.

use crate::rounds::Solved;
use crate::Comparison;
use questions::{random_assignment, random_tree};
use second::answer;
use second::constraint::{number_of_variables, Constraint};
use second::tree::{Assignment, Tree};
use second::verdict::SolverVerdict;

impl Comparison {
    /// Marks right answers, wrong ones, and each of some with every byte changed.
    pub fn answers(&mut self, solved: &Solved, constraints: &[Constraint], tree: &Tree, assignment: &Assignment) {
        let variables = number_of_variables(constraints);
        let mut answer_files = Vec::new();
        if let SolverVerdict::Tree { answer, .. } = &solved.verdict {
            answer_files.push(answer.clone());
        }
        // The planted answer; a crowded question can have more variables than were placed.
        if let Some(places) = assignment.0.get(..variables) {
            answer_files.push(answer::write(tree, &Assignment(places.to_vec())));
        }
        let nodes = 2 + self.random.below(63);
        let other_tree = random_tree(&mut self.random, nodes);
        for tree in [tree, &other_tree] {
            let assignment = random_assignment(&mut self.random, variables, tree);
            answer_files.push(answer::write(tree, &assignment));
        }
        for answer_file in &answer_files {
            self.mark("whole answers", &solved.file, answer_file);
            self.marked_in_another_order(&solved.file, answer_file);
            self.marked_in_other_case(&solved.file, answer_file);
        }
        if self.random.one_in(4) {
            let at = self.random.below(answer_files.len());
            self.mutated(&solved.file, &answer_files[at]);
        }
    }

    fn mutated(&mut self, file: &[u8], answer_file: &[u8]) {
        const SORT: &str = "mutated answers";
        let mut mutant = answer_file.to_vec();
        for at in 0..answer_file.len() {
            let right = answer_file[at];
            let chance = self.random.byte();
            // With bit 5 changed a letter is in the other case.
            for wrong in [right.wrapping_add(1), right.wrapping_sub(1), right ^ 32, 0, 1, 2, 255, chance] {
                mutant[at] = wrong;
                self.mark(SORT, file, &mutant);
            }
            mutant[at] = right;
        }
        for length in 0..answer_file.len() {
            self.mark("shortened answers", file, &answer_file[..length]);
        }
        for at in (0..answer_file.len()).step_by(4) {
            let (front, back) = answer_file.split_at(at);
            self.mark("answers lacking a record", file, &[front, &back[4..]].concat());
            self.mark("answers with a doubled record", file, &[front, &back[..4], back].concat());
        }
    }
}
