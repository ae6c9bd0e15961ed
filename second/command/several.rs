//! One question and several answers, so that the highest status is seen; files on standard input; names that are hard to print.

use crate::judge;
use crate::lines::Side;
use crate::run::{hold, write};
use crate::says::{self, Expected};
use crate::{damage, draws, Trial};

const ROUNDS: usize = 300;
/// Names that a shell would have to quote, and one that looks like an option.
const NAMES: [&str; 6] = ["with space", "t\tab", "new\nline", "\x01\x1b\x7f", "\u{e4}\u{4e2d}", "--pairs"];

impl Trial {
    pub fn several_answers(&mut self) {
        for round in 0..ROUNDS {
            let sorts = round % 4;
            let drawn = draws::planted_question(&mut self.random);
            let question = if self.random.one_in(2) {
                self.as_text(Side::Question, &drawn.question)
            } else {
                drawn.question.clone()
            };
            let names: Vec<String> = (0..1 + self.random.below(6)).map(|number| format!("several{number}")).collect();
            let answers: Vec<Option<Vec<u8>>> = names.iter().map(|_| self.one_of_several(&drawn, sorts)).collect();
            self.several(&question, &names, &answers);
        }
        self.on_standard_input();
        NAMES.iter().for_each(|name| self.named(name));
    }

    /// Right ones; or others too; or damaged ones too; or absent ones too.
    fn one_of_several(&mut self, drawn: &draws::Drawn, sorts: usize) -> Option<Vec<u8>> {
        let right = drawn.right.clone();
        let records = match self.random.below(1 + sorts) {
            0 => right,
            1 => draws::any_answer(&mut self.random, &drawn.question),
            2 => damage::answer(&mut self.random, &right),
            _ => return None,
        };
        Some(if self.random.one_in(2) { self.as_text(Side::Answer, &records) } else { records })
    }

    fn several(&mut self, question: &[u8], names: &[String], answers: &[Option<Vec<u8>>]) {
        write("question", question);
        let mut words = vec!["mark".to_string(), "question".to_string()];
        let mut marks = Vec::new();
        for (name, answer) in names.iter().zip(answers) {
            let absent = format!("{name}-absent");
            let (given, mark) = match answer {
                Some(answer) => {
                    write(name, answer);
                    (name, self.marked("question", question, name, answer))
                }
                None => (&absent, says::unread(&absent, &absent)),
            };
            words.push(given.clone());
            marks.push(mark);
        }
        let expected = says::marks(marks.iter().map(|(line, status)| (line.as_str(), *status)));
        let words: Vec<&str> = words.iter().map(String::as_str).collect();
        let said = self.run(&words);
        hold("several answers", &words, &said, &expected, &[question]);
        self.seen.note(format!("mark: several answers, status {}", expected.status));
    }

    fn marked(&mut self, question_name: &str, question: &[u8], name: &str, answer: &[u8]) -> (String, i32) {
        let marked = judge::mark(question, answer);
        self.note_mark(question, &marked);
        says::mark(question_name, name, &marked)
    }

    /// One of the two may be `-`.
    fn on_standard_input(&mut self) {
        for round in 0..60 {
            let drawn = draws::planted_question(&mut self.random);
            let question = self.as_text(Side::Question, &drawn.question);
            let answer = self.one_of_several(&drawn, round % 3).expect("an answer that is there");
            let (words, input) = match round % 2 {
                0 => (["mark", "-", "answer"], &question),
                _ => (["mark", "question", "-"], &answer),
            };
            write("question", &question);
            write("answer", &answer);
            let (line, status) = self.marked(words[1], &question, words[2], &answer);
            let said = self.run_on(&words, input);
            let expected = Expected { output: line.into_bytes(), errors: Vec::new(), status };
            hold("a file on standard input", &words, &said, &expected, &[&question, &answer]);
            let file = if round % 2 == 0 { "question" } else { "answer" };
            self.seen.note(format!("mark: {file} on standard input"));
        }
    }

    /// As the name of a question and of an answer, behind `--`.
    fn named(&mut self, name: &str) {
        let answer_name = format!("{name}-answer");
        for question in ["root 0\n", "child 0 1 2\n", "child 0 1\n", "leaf 16\n"] {
            let answer = "node 0 0 0\nnode 1 0 0\nvar 0 1\n";
            write(name, question.as_bytes());
            write(&answer_name, answer.as_bytes());
            let (line, status) = self.marked(name, question.as_bytes(), &answer_name, answer.as_bytes());
            let words = ["mark", "--", name, &answer_name];
            let said = self.run(&words);
            let expected = Expected { output: line.into_bytes(), errors: Vec::new(), status };
            hold("a name that is hard to print", &words, &said, &expected, &[]);
            if name.chars().any(|letter| letter.is_control()) {
                self.seen.note("mark: a name with control characters");
            }
        }
    }
}
