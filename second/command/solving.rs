//! Questions solved: every written one for the solver, as bytes and as text, printed as text, as a drawing and as bytes; texts of paths; and damaged
//! ones, whose place is told. A tree that was printed is then marked.

use crate::held::Held;
use crate::judge;
use crate::lines::Side;
use crate::run::{hold, write};
use crate::says::{self, Expected, Printing};
use crate::{damage, draws, fail, forms, Trial};
use second::verdict::SolverVerdict;
use second::{Refusal, LEAST_BUFFER};
use written::Expected as Written;

/// What `solve` allows its search unless it is told.
const ALLOWANCE: u32 = 1_000_000;
/// The second solver is asked for so many choices, and the command is given as many.
const AFFORDABLE: u32 = 200;

/// A question with the verdict that is known under an allowance.
struct Known {
    name: String,
    records: Vec<u8>,
    allowance: u32,
    verdict: SolverVerdict,
}

impl Trial {
    pub fn solving(&mut self) {
        for known in known_questions() {
            let text = self.as_text(Side::Question, &known.records);
            self.solve_known(&known, &known.records, Printing::Text);
            self.solve_known(&known, &text, Printing::Text);
            let file = if self.random.one_in(2) { &known.records } else { &text };
            let printing = if self.random.one_in(2) { Printing::Bytes } else { Printing::Drawing };
            self.solve_known(&known, file, printing);
        }
        for _ in 0..150 {
            let text = draws::paths_text(&mut self.random);
            self.solve_afresh("a text of paths", &text);
        }
        for _ in 0..400 {
            let file = self.damaged_question();
            self.solve_afresh("a damaged question", &file);
        }
    }

    fn solve_known(&mut self, known: &Known, file: &[u8], printing: Printing) {
        let verdict_of = |held: &Held| {
            assert_eq!(held.records, known.records, "{}: the text form has the same records", known.name);
            known.verdict.clone()
        };
        self.solve(&known.name, file, known.allowance, printing, verdict_of);
    }

    /// Where no verdict is written the second solver is asked.
    fn solve_afresh(&mut self, name: &str, file: &[u8]) {
        let printing = self.random.pick(&[Printing::Text, Printing::Bytes, Printing::Drawing]);
        let allowance = self.random.pick(&[0, 1, 3, AFFORDABLE, AFFORDABLE]);
        self.solve(name, file, allowance, printing, |held| second::solve(&held.records, LEAST_BUFFER, allowance));
    }

    fn solve(
        &mut self,
        name: &str,
        file: &[u8],
        allowance: u32,
        printing: Printing,
        verdict_of: impl Fn(&Held) -> SolverVerdict,
    ) {
        let form = forms::of_question(file).name();
        let options = self.options_for(allowance, printing);
        let given = self.given("solve", &options);
        let expected = match judge::question(file) {
            Err(refused) => {
                self.seen.note(format!("solve: {}", refused.sort));
                says::refused(&given.name, &refused)
            }
            Ok(held) => {
                let verdict = verdict_of(&held);
                self.seen.note(format!("solve: {form}, {printing:?}: {}", sort_of(&verdict)));
                self.note_drawing(&verdict, printing);
                says::solve(&verdict, printing)
            }
        };
        self.hold_given(name, &given, file, &expected);
    }

    fn options_for(&mut self, allowance: u32, printing: Printing) -> Vec<String> {
        let mut options = Vec::new();
        if allowance != ALLOWANCE || self.random.one_in(9) {
            options.extend(["--allowance".to_string(), allowance.to_string()]);
        }
        match printing {
            Printing::Text => {}
            Printing::Drawing => options.push("--draw".to_string()),
            Printing::Bytes => options.push("--bytes".to_string()),
        }
        options
    }

    fn note_drawing(&mut self, verdict: &SolverVerdict, printing: Printing) {
        let (SolverVerdict::Tree { answer, .. }, Printing::Drawing) = (verdict, printing) else { return };
        for node in answer.chunks(4).filter(|record| record[0] == 1) {
            let on_it = answer.chunks(4).filter(|record| record[0] == 2 && record[2] == node[1]).count();
            let name = match node[3] {
                _ if node[1] == 0 => "the document node",
                0 => "a blank",
                label if label.is_ascii_alphabetic() => "a letter",
                _ => "a number",
            };
            self.seen.note(format!("drawing: {name}, {} variables", ["no", "one"].get(on_it).unwrap_or(&"several")));
        }
    }

    fn damaged_question(&mut self) -> Vec<u8> {
        let drawn = draws::planted_question(&mut self.random);
        match self.random.below(4) {
            0 => damage::question(&mut self.random, &drawn.question),
            1 => {
                let text = draws::paths_text(&mut self.random);
                questions::paths::damaged_text(&mut self.random, &text)
            }
            _ => {
                let text = self.as_text(Side::Question, &drawn.question);
                damage::text(&mut self.random, &text)
            }
        }
    }

    /// `cudreth solve q > a && cudreth mark q a`.
    pub fn solved_and_marked(&mut self) {
        let trees = known_questions().into_iter().filter(|known| matches!(known.verdict, SolverVerdict::Tree { .. }));
        for known in trees.take(300) {
            let file = self.as_text(Side::Question, &known.records);
            write("q", &file);
            let allowance = known.allowance.to_string();
            let words = ["solve", "--allowance", &allowance, "q"];
            let solved = self.run(&words);
            hold(&known.name, &words, &solved, &says::solve(&known.verdict, Printing::Text), &[&file]);
            write("a", &solved.output);
            let words = ["mark", "q", "a"];
            let said = self.run(&words);
            let expected = Expected { output: b"a: met\n".to_vec(), errors: Vec::new(), status: 0 };
            hold(&known.name, &words, &said, &expected, &[&file, &solved.output]);
            self.seen.note("solve: then marked");
        }
    }
}

/// The written questions for the solver. A buffer that is too short cannot be given: there the second solver is asked anew.
fn known_questions() -> Vec<Known> {
    let mut known = Vec::new();
    for (name, question) in written::all().unwrap_or_else(|error| fail("written questions", &error)) {
        let Written::Solver { allowance, verdict, .. } = question.expected else { continue };
        let records = question.file;
        let (allowance, verdict) = match verdict {
            SolverVerdict::Refused(Refusal(7)) => (AFFORDABLE, second::solve(&records, LEAST_BUFFER, AFFORDABLE)),
            verdict => (allowance, verdict),
        };
        known.push(Known { name, records, allowance, verdict });
    }
    known
}

fn sort_of(verdict: &SolverVerdict) -> &'static str {
    match verdict {
        SolverVerdict::Tree { .. } => "tree",
        SolverVerdict::None { .. } => "none",
        SolverVerdict::Spent { .. } => "spent",
        SolverVerdict::Refused(_) => "refused",
    }
}
