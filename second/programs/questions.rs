//! The stored questions and the examples, and the benchmark files with their known counts.

use crate::call::open;
use crate::xml::as_second;
use crate::{fail, hold_verdict, text, Trial, ALLOWANCE};
use second::verdict::{hex, MarkerVerdict, SolverVerdict};
use second::{Refusal, LEAST_BUFFER, LEAST_NODES_BUFFER, LEAST_RECORDS_BUFFER, LEAST_TEXT_BUFFER};
use written::{Expected, Question};

/// The second solver is asked where it can tell within so many choices.
const AFFORDABLE: u32 = 2_000;

impl Trial {
    pub fn written_questions(&mut self) {
        for (name, question) in written::all().unwrap_or_else(|error| fail("written questions", &error)) {
            self.written_question(&name, &question);
        }
    }

    fn written_question(&mut self, name: &str, question: &Question) {
        let file = &question.file;
        match &question.expected {
            Expected::Marker { answer, verdict } => self.mark(name, file, answer, verdict),
            // No program draws.
            Expected::Draw { .. } => {}
            // The programs' own buffers are long enough.
            Expected::Paths { buffer, .. } if *buffer < LEAST_RECORDS_BUFFER => {
                self.paths(name, file, &second::paths(file, LEAST_RECORDS_BUFFER));
            }
            Expected::XmlWriter { buffer, .. } if *buffer < LEAST_TEXT_BUFFER => {
                self.toxml(name, file, &as_second("toxml", file));
            }
            Expected::XmlReader { buffer, .. } if *buffer < LEAST_NODES_BUFFER => {
                self.fromxml(name, file, &as_second("fromxml", file));
            }
            Expected::Paths { verdict, .. } => self.paths(name, file, verdict),
            Expected::XmlWriter { verdict, .. } => self.toxml(name, file, verdict),
            Expected::XmlReader { verdict, .. } => self.fromxml(name, file, verdict),
            Expected::Solver { verdict, .. } if holds_for_the_program(verdict) => self.solve(name, file, verdict),
            Expected::Solver { .. } => match second::solve(file, LEAST_BUFFER, AFFORDABLE) {
                SolverVerdict::Spent { .. } => self.left_out += 1,
                verdict => {
                    self.asked_anew += 1;
                    self.solve(name, file, &verdict);
                }
            },
        }
    }

    /// Of a tree that the second solver would take too long to find only the first line is known, and that it meets the constraints.
    pub fn known_counts(&mut self) {
        const FOLDER: &str = "bench/inputs";
        for line in text_of(&format!("{FOLDER}/COUNTS.txt")).lines() {
            let mut words = line.split(' ');
            let known = (words.next(), words.next(), words.next().and_then(|count| count.parse().ok()));
            let (Some(name), Some(verdict), Some(count)) = known else { fail("COUNTS.txt", &line) };
            let path = format!("{FOLDER}/{name}");
            let file = std::fs::read(&path).unwrap_or_else(|error| fail(&path, &error));
            match verdict {
                _ if count > ALLOWANCE => self.solve(&path, &file, &SolverVerdict::Spent { count: ALLOWANCE }),
                "none" => self.solve(&path, &file, &SolverVerdict::None { count }),
                "tree" if count <= AFFORDABLE => {
                    self.solve(&path, &file, &second::solve(&file, LEAST_BUFFER, AFFORDABLE));
                }
                "tree" => self.known_count_of_tree(&path, &file, count),
                _ => fail("COUNTS.txt", &line),
            }
        }
    }

    fn known_count_of_tree(&mut self, path: &str, file: &[u8], count: u32) {
        let said = self.run(self.solving(&open(path)).command());
        let printed = said.text();
        let first = format!("tree {count}\n");
        let Some(answer) = printed.strip_prefix(&first).and_then(text::answer_of) else {
            fail(path, &format!("printed {printed:?}\nexpected {first:?} and the records of a tree"));
        };
        if second::mark(file, &answer) != MarkerVerdict::Met {
            fail(path, &format!("printed {printed:?}, which does not meet\nconstraints {}", hex(file)));
        }
        let verdict = SolverVerdict::Tree { count, answer };
        hold_verdict(path, &said, text::of_solve(&verdict), &[("constraints", file)]);
        self.seen.solve(file, &verdict);
    }
}

/// A larger allowance never changes a tree or a none; questions 1 to 6 come before the buffer and the search.
fn holds_for_the_program(verdict: &SolverVerdict) -> bool {
    match verdict {
        SolverVerdict::Tree { count, .. } | SolverVerdict::None { count } => *count <= ALLOWANCE,
        SolverVerdict::Spent { count } => *count == ALLOWANCE,
        SolverVerdict::Refused(Refusal(question)) => *question <= 6,
    }
}

fn text_of(path: &str) -> String {
    std::fs::read_to_string(path).unwrap_or_else(|error| fail(path, &error))
}
