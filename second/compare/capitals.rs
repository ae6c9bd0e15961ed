//! Capitals (document 02, request (vi)): what of them came up, and what must; random questions, answers and texts in another case.

use crate::rounds::Solved;
use crate::{disagree, Comparison};
use questions::capitals::{
    answer_has_capital, apart, capital, has_both_cases, in_either_case, question_has_capital, relabelled_answer,
    relabelled_lines, relabelled_question, small,
};
use second::closure::Clash;
use second::path::{text_of, Path};
use second::search::Trace;
use second::verdict::{hex, FillVerdict, MarkerVerdict, SolverVerdict};
use second::LEAST_BUFFER;

pub const CAPITALS: [&str; 20] = [
    "a capital written as its small letter",
    "a tree with both cases of a letter on one variable",
    "a tree with both cases of a letter on two variables of one node",
    "two labels clash in a file with a capital",
    "spent with a capital",
    "a tree that is none if case counts",
    "a tree with another count if case counts",
    "none with another count if case counts",
    "a tree in another case",
    "none in another case",
    "spent in another case",
    "refused in another case",
    "met by a capital where a small letter is asked",
    "met by a small letter where a capital is asked",
    "met by a capital where it is asked",
    "unmet by a capital",
    "unmet where a capital is asked",
    "met in another case",
    "unmet in another case",
    "an answer refused in another case",
];

impl Comparison {
    /// No tree that is written has a capital.
    pub fn note_capitals(&mut self, file: &[u8], verdict: &SolverVerdict, trace: &Trace) {
        if let SolverVerdict::Tree { answer, .. } = verdict {
            if answer_has_capital(answer) {
                disagree("trees carry the small letter", &format!("constraints {}\n{verdict}", hex(file)));
            }
        }
        if !question_has_capital(file) {
            return;
        }
        match verdict {
            SolverVerdict::Tree { answer, .. } => self.note_letters(file, answer),
            SolverVerdict::None { .. } => self
                .capitals
                .note_if(trace.clashes.contains(&Clash::TwoLabels), "two labels clash in a file with a capital"),
            SolverVerdict::Spent { .. } => self.capitals.note("spent with a capital"),
            SolverVerdict::Refused(_) => {}
        }
    }

    /// Of a question with a capital that has a tree.
    fn note_letters(&mut self, file: &[u8], answer_file: &[u8]) {
        self.capitals.note("a capital written as its small letter");
        let (one, two) = (has_both_cases(file, answer_file, true), has_both_cases(file, answer_file, false));
        self.capitals.note_if(one, "a tree with both cases of a letter on one variable");
        self.capitals.note_if(two, "a tree with both cases of a letter on two variables of one node");
    }

    /// By the label that a record asks and the one that is drawn.
    pub fn note_capitals_marked(&mut self, file: &[u8], answer_file: &[u8], verdict: &MarkerVerdict) {
        match verdict {
            MarkerVerdict::Met => {
                for record in file.chunks(4).filter(|record| record[0] == 8) {
                    let (asked, drawn) = (record[3], label_drawn(answer_file, record[1]));
                    match (asked.is_ascii_uppercase(), drawn.is_ascii_uppercase()) {
                        (false, true) => self.capitals.note("met by a capital where a small letter is asked"),
                        (true, false) => self.capitals.note("met by a small letter where a capital is asked"),
                        (true, true) => self.capitals.note("met by a capital where it is asked"),
                        (false, false) => {}
                    }
                }
            }
            MarkerVerdict::Unmet { position, kind: 8 } => {
                let record = &file[4 * position..][..4];
                let (asked, drawn) = (record[3], label_drawn(answer_file, record[1]));
                self.capitals.note_if(drawn.is_ascii_uppercase(), "unmet by a capital");
                self.capitals.note_if(asked.is_ascii_uppercase(), "unmet where a capital is asked");
            }
            MarkerVerdict::Unmet { .. } | MarkerVerdict::Refused(_) => {}
        }
    }

    /// A random question with its letters small, as capitals, and each in either case.
    pub fn solved_in_other_case(&mut self, solved: &Solved) {
        const SORT: &str = "questions in another case";
        let either = relabelled_question(&solved.file, |label| in_either_case(&mut self.random, label));
        self.hold_in_other_case(SORT, solved, LEAST_BUFFER, &either);
        self.hold_small_and_capital(SORT, solved);
        if question_has_capital(&solved.file) {
            let file = relabelled_question(&solved.file, apart);
            let case_counts = second::solve(&file, LEAST_BUFFER, solved.allowance);
            self.note_if_case_counts(&solved.verdict, &case_counts);
        }
    }

    /// With its letters small, and as capitals; where there are choices, with one too few as well.
    pub fn hold_small_and_capital(&mut self, sort: &'static str, solved: &Solved) {
        let spent = solved.with_one_choice_too_few();
        for letter in [small, capital] {
            let other = relabelled_question(&solved.file, letter);
            self.hold_in_other_case(sort, solved, LEAST_BUFFER, &other);
            if let Some(spent) = &spent {
                self.hold_in_other_case(sort, spent, LEAST_BUFFER, &other);
            }
        }
    }

    pub fn damaged_in_other_case(&mut self, damaged: &Solved, buffer: usize) {
        let other = relabelled_question(&damaged.file, |label| in_either_case(&mut self.random, label));
        self.hold_in_other_case("damaged questions in another case", damaged, buffer, &other);
    }

    /// The same verdict, count and bytes, or the same number.
    pub fn hold_in_other_case(&mut self, sort: &'static str, solved: &Solved, buffer: usize, other: &[u8]) {
        self.hold_solver(sort, other, buffer, solved.allowance, &solved.verdict);
        let what = match solved.verdict {
            SolverVerdict::Tree { .. } => "a tree in another case",
            SolverVerdict::None { .. } => "none in another case",
            SolverVerdict::Spent { .. } => "spent in another case",
            SolverVerdict::Refused(_) => "refused in another case",
        };
        self.capitals.note_if(other != solved.file, what);
    }

    fn note_if_case_counts(&mut self, verdict: &SolverVerdict, case_counts: &SolverVerdict) {
        use SolverVerdict::{None, Tree};
        match (verdict, case_counts) {
            (Tree { .. }, None { .. }) => self.capitals.note("a tree that is none if case counts"),
            (Tree { count, .. }, Tree { count: other, .. }) => {
                self.capitals.note_if(count != other, "a tree with another count if case counts");
            }
            (None { count }, None { count: other }) => {
                self.capitals.note_if(count != other, "none with another count if case counts");
            }
            _ => {}
        }
    }

    /// A random answer, the same with a byte changed, and the same cut short, in another case or to the question in another case.
    pub fn marked_in_other_case(&mut self, file: &[u8], answer_file: &[u8]) {
        let mut mutant = answer_file.to_vec();
        mutant[self.random.below(answer_file.len())] = self.random.byte();
        let cut = &answer_file[..self.random.below(answer_file.len())];
        for answer_file in [answer_file, &mutant, cut] {
            let either = relabelled_question(file, |label| in_either_case(&mut self.random, label));
            let either_drawn = relabelled_answer(answer_file, |label| in_either_case(&mut self.random, label));
            let (small_file, small_drawn) = (relabelled_question(file, small), relabelled_answer(answer_file, small));
            let first = second::mark(file, answer_file);
            self.hold_marked_alike("answers in another case", first, file, &small_drawn);
            self.hold_marked_alike("answers in another case", first, &small_file, &small_drawn);
            self.hold_marked_alike("answers to questions in another case", first, &small_file, answer_file);
            self.hold_marked_alike("answers and questions each in either case", first, &either, &either_drawn);
        }
    }

    fn hold_marked_alike(&mut self, sort: &'static str, first: MarkerVerdict, file: &[u8], answer_file: &[u8]) {
        let said = self.mark(sort, file, answer_file);
        if said != first {
            let files = format!("constraints {}\nanswer {}", hex(file), hex(answer_file));
            disagree(sort, &format!("{said}, in another case {first}\n{files}"));
        }
        self.capitals.note(match said {
            MarkerVerdict::Met => "met in another case",
            MarkerVerdict::Unmet { .. } => "unmet in another case",
            MarkerVerdict::Refused(_) => "an answer refused in another case",
        });
    }

    /// A right text with its tests small and as capitals: the records have the bytes that stand in the text.
    pub fn text_in_other_case(&mut self, lines: &[Path], verdict: &FillVerdict) {
        const SORT: &str = "texts in another case";
        for letter in [small, capital] {
            let text = text_of(&relabelled_lines(lines, &mut { letter }));
            let said = self.text(SORT, &text);
            let expected = match verdict {
                FillVerdict::Written(records) => FillVerdict::Written(relabelled_question(records, letter)),
                FillVerdict::Refused(refusal) => FillVerdict::Refused(*refusal),
            };
            if said != expected {
                disagree(SORT, &format!("{said}, expected {expected}\ntext {}", String::from_utf8_lossy(&text)));
            }
        }
    }
}

/// The label of the node that the variable is on, in an answer that is not refused.
fn label_drawn(answer_file: &[u8], variable: u8) -> u8 {
    let nodes = answer_file.chunks(4).take_while(|record| record[0] == 1).count();
    let node = answer_file[4 * (nodes + variable as usize) + 2];
    answer_file[4 * node as usize + 3]
}
