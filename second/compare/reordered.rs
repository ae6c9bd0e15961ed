//! Request (ii), run: the records of a file in another order. The solver's verdict, count and bytes stay; the number of a refused file and
//! the marker's first unmet record are those of the new order.

use crate::rounds::Solved;
use crate::{disagree, Comparison};
use questions::shuffle::random_order;
use second::constraint::{self, number_of_variables};
use second::tree::meets;
use second::verdict::{hex, MarkerVerdict, SolverVerdict};
use second::{answer, Refusal, LEAST_BUFFER};

impl Comparison {
    /// A random question, with every buffer.
    pub fn solved_in_another_order(&mut self, solved: &Solved) {
        const SORT: &str = "reordered questions";
        let other = random_order(&mut self.random, &solved.file);
        self.hold_reordered(SORT, solved, &other);
        for buffer in [LEAST_BUFFER + 1, 200] {
            self.hold_solver(SORT, &other, buffer, solved.allowance, &solved.verdict);
        }
        for buffer in [0, LEAST_BUFFER - 1] {
            self.hold_solver(SORT, &other, buffer, solved.allowance, &SolverVerdict::Refused(Refusal(7)));
        }
    }

    /// A random file that is refused. One that is too long may end within a record; it has then no other order.
    pub fn refused_in_another_order(&mut self, file: &[u8], refusal: Refusal) {
        if file.len() % 4 == 0 {
            let other = random_order(&mut self.random, file);
            self.hold_refused("reordered damaged questions", refusal, &other);
        }
    }

    /// A random answer, the same with a byte changed, and the same cut short.
    pub fn marked_in_another_order(&mut self, file: &[u8], answer_file: &[u8]) {
        let other = random_order(&mut self.random, file);
        let mut mutant = answer_file.to_vec();
        mutant[self.random.below(answer_file.len())] = self.random.byte();
        let cut = &answer_file[..self.random.below(answer_file.len())];
        for answer_file in [answer_file, &mutant, cut] {
            self.hold_marked("answers to reordered questions", file, answer_file, &other);
        }
    }

    pub fn hold_reordered(&mut self, sort: &'static str, solved: &Solved, other: &[u8]) {
        self.hold_solver(sort, other, LEAST_BUFFER, solved.allowance, &solved.verdict);
        let what = match solved.verdict {
            SolverVerdict::Tree { .. } => "reordered tree",
            SolverVerdict::None { .. } => "reordered none",
            SolverVerdict::Spent { .. } => "reordered spent",
            SolverVerdict::Refused(_) => return,
        };
        self.shuffles.note_if(other != solved.file, what);
    }

    /// `first` is the number in the first order. 1 stays 1; another number is that of the first record that is refused alone.
    pub fn hold_refused(&mut self, sort: &'static str, first: Refusal, other: &[u8]) {
        let now = match first {
            Refusal(1) => first,
            _ => other.chunks(4).find_map(|record| constraint::read(record).err()).expect("a bad record"),
        };
        let solved = [0, LEAST_BUFFER].map(|buffer| self.solve(sort, other, buffer, 0));
        let marked = self.mark(sort, other, &[1, 0, 0, 0, 1, 1, 0, 0]);
        let refused = SolverVerdict::Refused(now);
        if solved != [refused.clone(), refused.clone()] || marked != MarkerVerdict::Refused(now) {
            let said = format!("{}, {}, marker {marked}", solved[0], solved[1]);
            disagree(sort, &format!("{said}, expected {refused}\nconstraints {}", hex(other)));
        }
        self.shuffles.note(match first {
            Refusal(1) => "reordered and still too long",
            _ if now == first => "reordered and refused with the same number",
            _ => "reordered and refused with another number",
        });
    }

    /// The same answer to another order: met stays met, and a refused answer keeps its number.
    pub fn hold_marked(&mut self, sort: &'static str, file: &[u8], answer_file: &[u8], other: &[u8]) {
        let first = second::mark(file, answer_file);
        let now = self.mark(sort, other, answer_file);
        let expected = match first {
            MarkerVerdict::Unmet { .. } => first_unmet(other, answer_file),
            met_or_refused => met_or_refused,
        };
        if now != expected {
            let files = format!("first {}\nother {}\nanswer {}", hex(file), hex(other), hex(answer_file));
            disagree(sort, &format!("{first}, in another order {now}, expected {expected}\n{files}"));
        }
        match (first, now) {
            (MarkerVerdict::Unmet { position, kind }, MarkerVerdict::Unmet { position: other, kind: other_kind }) => {
                self.shuffles.note_if(position != other, "reordered and unmet at another position");
                self.shuffles.note_if(kind != other_kind, "reordered and unmet of another kind");
            }
            (MarkerVerdict::Met, _) => self.shuffles.note_if(file != other, "reordered and met"),
            _ => self.shuffles.note_if(file != other, "reordered, the answer refused"),
        }
    }
}

/// By a walk over the file, each record read alone; met where every record is.
fn first_unmet(file: &[u8], answer_file: &[u8]) -> MarkerVerdict {
    let variables = number_of_variables(&constraint::read(file).expect("an accepted file"));
    let (tree, assignment) = answer::read(answer_file, variables).expect("an answer that is not refused");
    for (position, record) in file.chunks(4).enumerate() {
        let constraint = constraint::read(record).expect("a record of an accepted file")[0];
        if !meets(&tree, &assignment, constraint) {
            return MarkerVerdict::Unmet { position, kind: record[0] };
        }
    }
    MarkerVerdict::Met
}
