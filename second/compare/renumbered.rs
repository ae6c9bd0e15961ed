//! Request (ii), run: the variables of a file renumbered, one to one. Whether there is a tree stays; the count, n and the answer may change.

use crate::rounds::Solved;
use crate::{disagree, Comparison};
use questions::shuffle::{random_permutation, renumbered};
use second::constraint::{self, number_of_variables};
use second::tree::Assignment;
use second::verdict::{hex, MarkerVerdict, SolverVerdict};
use second::{answer, LEAST_BUFFER};

impl Comparison {
    /// A random question of so many variables.
    pub fn solved_with_other_numbers(&mut self, solved: &Solved, variables: usize) {
        let numbers = random_permutation(&mut self.random, variables);
        let other = self.hold_renumbered("renumbered questions", solved, &numbers);
        let constraints = constraint::read(&other.file).expect("held to be accepted");
        self.check_some_meanings(&constraints, &other.verdict);
    }

    pub fn hold_renumbered(&mut self, sort: &'static str, solved: &Solved, numbers: &[usize]) -> Solved {
        let file = renumbered(&solved.file, numbers);
        let verdict = self.solve(sort, &file, LEAST_BUFFER, solved.allowance);
        let other = Solved { file, allowance: solved.allowance, verdict };
        if !self.may_be_renumbered(solved, &other, numbers.len()) {
            let first = format!("{} {}", hex(&solved.file), solved.verdict);
            let other = format!("{} {}", hex(&other.file), other.verdict);
            disagree(sort, &format!("first {first}\nother {other}\nvariables to {numbers:?}"));
        }
        if let SolverVerdict::Tree { answer: answer_file, .. } = &solved.verdict {
            self.hold_renumbered_answer(&other.file, answer_file, numbers);
        }
        other
    }

    /// The other file is accepted, its own n is at most the first one's, and one of them has none exactly where the other has, if neither
    /// is spent.
    fn may_be_renumbered(&mut self, first: &Solved, other: &Solved, variables: usize) -> bool {
        let Ok(constraints) = constraint::read(&other.file) else {
            return false;
        };
        let other_variables = number_of_variables(&constraints);
        self.shuffles.note_if(other_variables < variables, "renumbered with another n");
        other_variables <= variables
            && match (&first.verdict, &other.verdict) {
                (SolverVerdict::Tree { count, answer }, SolverVerdict::Tree { count: other, answer: other_answer }) => {
                    self.shuffles.note("renumbered tree");
                    self.shuffles.note_if(count != other, "renumbered tree with another count");
                    self.shuffles.note_if(answer != other_answer, "renumbered with another answer");
                    true
                }
                (SolverVerdict::None { count }, SolverVerdict::None { count: other }) => {
                    self.shuffles.note("renumbered none");
                    self.shuffles.note_if(count != other, "renumbered none with another count");
                    true
                }
                (SolverVerdict::Spent { .. }, SolverVerdict::Spent { .. }) => true,
                (SolverVerdict::Spent { .. }, _) | (_, SolverVerdict::Spent { .. }) => {
                    self.shuffles.note("renumbered, one of them spent");
                    true
                }
                _ => false,
            }
    }

    /// Why none stays none: the first file's tree meets the other file as well, with each variable's place under its new number.
    fn hold_renumbered_answer(&mut self, other: &[u8], answer_file: &[u8], numbers: &[usize]) {
        const SORT: &str = "answers renumbered with their questions";
        let (tree, assignment) =
            answer::read(answer_file, numbers.len()).unwrap_or_else(|_| disagree(SORT, "no answer file"));
        let mut places = assignment.0.clone();
        for (&number, &node) in numbers.iter().zip(&assignment.0) {
            places[number] = node;
        }
        let constraints = constraint::read(other).expect("held to be accepted");
        places.truncate(number_of_variables(&constraints));
        let other_answer = answer::write(&tree, &Assignment(places));
        if self.mark(SORT, other, &other_answer) != MarkerVerdict::Met {
            disagree(SORT, &format!("not met\nconstraints {}\nanswer {}", hex(other), hex(&other_answer)));
        }
    }
}
