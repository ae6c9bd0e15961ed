//! Marks in bulk: tens of thousands of pairs of files in one run of `mark --pairs`, each line worked out by the second side.

use crate::forms;
use crate::judge::{self, Marked};
use crate::lines::Side;
use crate::papers::Paper;
use crate::run::{hold, shown, write, Said, FILES};
use crate::says::{self, Expected, UNREAD};
use crate::{fail, Trial};
use second::constraint::KIND_NAMES;
use std::collections::VecDeque;
use written::Expected as Written;

/// Questions that are drawn. Those that are not refused get so many answers, each of which is also put to so many of the questions before.
const QUESTIONS: usize = 5_000;
const ANSWERS: usize = 4;
const OTHERS: usize = 2;
/// So many of the last questions that are not refused are kept for that.
const KEPT: usize = 20;

/// A pair in a list, and the line that is expected of it.
#[derive(Clone)]
struct Pair {
    question: String,
    answer: String,
    line: String,
    status: i32,
}

impl AsRef<Pair> for Pair {
    fn as_ref(&self) -> &Pair {
        self
    }
}

impl Trial {
    pub fn lists_of_pairs(&mut self) {
        let mut pairs = self.written_pairs();
        self.drawn_pairs(&mut pairs);
        self.list("every pair", &pairs);
        for status in [0, 1] {
            let below: Vec<&Pair> = pairs.iter().filter(|pair| pair.status <= status).take(1_000).collect();
            self.list(&format!("pairs up to status {status}"), &below);
        }
        self.list_on_input(&pairs[..1_000]);
        self.list_with_absent(&pairs[..1_000]);
        self.list_with_wrong_lines(&pairs[..2]);
        self.list::<Pair>("no pair", &[]);
    }

    /// Every written question to the marker, in bytes and in text.
    fn written_pairs(&mut self) -> Vec<Pair> {
        let mut pairs = Vec::new();
        let all = written::all().unwrap_or_else(|error| fail("written questions", &error));
        for (at, (_, question)) in all.iter().enumerate() {
            let Written::Marker { answer, .. } = &question.expected else { continue };
            let in_text = (self.as_text(Side::Question, &question.file), self.as_text(Side::Answer, answer));
            for (form, (question, answer)) in [(question.file.clone(), answer.clone()), in_text].into_iter().enumerate()
            {
                let (question_name, answer_name) = (format!("wq{at}-{form}"), format!("wa{at}-{form}"));
                write(&question_name, &question);
                write(&answer_name, &answer);
                let paper = Paper::new(question, Vec::new(), None);
                pairs.push(self.pair(&question_name, &paper, &answer_name, &answer));
            }
        }
        pairs
    }

    fn drawn_pairs(&mut self, pairs: &mut Vec<Pair>) {
        let mut others: VecDeque<(String, Paper)> = VecDeque::new();
        for number in 0..QUESTIONS {
            let (name, paper) = (format!("q{number}"), self.paper());
            write(&name, &paper.file);
            for number in 0..if paper.asked.is_ok() { ANSWERS } else { 1 } {
                let (answer_name, answer) = (format!("{name}-a{number}"), self.answer(&paper));
                write(&answer_name, &answer);
                pairs.push(self.pair(&name, &paper, &answer_name, &answer));
                for _ in 0..OTHERS.min(others.len()) {
                    let (other_name, other) = &others[self.random.below(others.len())];
                    pairs.push(self.pair(other_name, other, &answer_name, &answer));
                }
            }
            if paper.asked.is_ok() {
                others.push_back((name, paper));
            }
            if others.len() > KEPT {
                others.pop_front();
            }
        }
    }

    fn pair(&mut self, name: &str, paper: &Paper, answer_name: &str, answer: &[u8]) -> Pair {
        let marked = match &paper.asked {
            Ok(held) => judge::mark_held(held, answer),
            Err(refused) => Marked::RefusedQuestion(refused.clone()),
        };
        self.note_mark(&paper.file, &marked);
        let (line, status) = says::mark(name, answer_name, &marked);
        Pair { question: name.to_string(), answer: answer_name.to_string(), line, status }
    }

    pub fn note_mark(&mut self, question: &[u8], marked: &Marked) {
        let form = forms::of_question(question).name();
        if let Marked::Unmet { line: Some(2..), .. } = marked {
            self.seen.note(format!("mark: question in {form}: unmet behind line 1"));
        }
        self.seen.note(match marked {
            Marked::Met => format!("mark: question in {form}: met"),
            Marked::Unmet { record, .. } => {
                format!("mark: question in {form}: unmet {}", KIND_NAMES[record[0] as usize - 1])
            }
            Marked::RefusedQuestion(refused) => format!("mark: question in {}", refused.sort),
            Marked::RefusedAnswer(refused) => format!("mark: answer in {}", refused.sort),
        });
    }

    /// "Parted by a tab, or by spaces if it has no tab."
    fn list_of<P: AsRef<Pair>>(&mut self, pairs: &[P]) -> Vec<u8> {
        let mut list = String::new();
        for pair in pairs {
            let Pair { question, answer, .. } = pair.as_ref();
            // A name with a space needs the tab.
            let between = if answer.contains(' ') { "\t" } else { self.random.pick(&["\t", " ", "   "]) };
            self.seen.note(if between == "\t" { "mark: a tab in a list" } else { "mark: spaces in a list" });
            list += &format!("{question}{between}{answer}\n");
        }
        if self.random.one_in(2) {
            list.pop();
        }
        list.into_bytes()
    }

    fn list<P: AsRef<Pair>>(&mut self, name: &str, pairs: &[P]) {
        let list = self.list_of(pairs);
        write("list", &list);
        let words = ["mark", "--pairs", "list"];
        let said = self.run(&words);
        self.hold_list(name, &words, said, pairs);
    }

    fn list_on_input(&mut self, pairs: &[Pair]) {
        let list = self.list_of(pairs);
        let words = ["mark", "--pairs", "-"];
        let said = self.run_on(&words, &list);
        self.hold_list("a list on standard input", &words, said, pairs);
        self.seen.note("mark: list on standard input");
    }

    /// Files that are not there, among others that are: "of two files at fault the question comes first, and a file that cannot be read
    /// before one that is refused".
    fn list_with_absent(&mut self, pairs: &[Pair]) {
        let mut with_absent = Vec::new();
        for pair in pairs {
            let Pair { question, answer, .. } = pair;
            for (question, answer, absent) in [
                ("absent", &**answer, "absent"),
                (question, "not there", "not there"),
                ("absent", "not there", "absent"),
            ] {
                let (line, status) = says::unread(answer, absent);
                with_absent.push(Pair { question: question.to_string(), answer: answer.to_string(), line, status });
            }
            with_absent.push(pair.clone());
        }
        self.list("a list with files that are not there", &with_absent);
        self.seen.note("mark: question that is not there");
        self.seen.note("mark: answer that is not there");
    }

    /// "A line of LIST that is not two names is told on standard error; one without a word is passed over."
    fn list_with_wrong_lines(&mut self, pairs: &[Pair]) {
        let lines: Vec<String> = pairs.iter().map(|pair| format!("{} {}\n", pair.question, pair.answer)).collect();
        let list = format!("\n{}one\n  \none two three\n{}\n", lines[0], lines[1]);
        write("a list", list.as_bytes());
        let words = ["mark", "--pairs", "a list"];
        let said = self.run(&words);
        let output = format!("{}{}", pairs[0].line, pairs[1].line).into_bytes();
        let told = |line: usize| format!("cudreth: a list: line {line} is not a question and an answer\n");
        let errors = format!("{}{}", told(3), told(5)).into_bytes();
        hold("a list with lines that are wrong", &words, &said, &Expected { output, errors, status: UNREAD }, &[]);
    }

    /// The first line that differs is told with its files.
    fn hold_list<P: AsRef<Pair>>(&mut self, name: &str, words: &[&str], said: Said, pairs: &[P]) {
        let mut lines = said.output.split_inclusive(|&byte| byte == b'\n');
        for pair in pairs.iter().map(AsRef::as_ref) {
            hold_line(name, lines.next().unwrap_or_default(), pair);
        }
        let marks = pairs.iter().map(AsRef::as_ref).map(|pair| (pair.line.as_str(), pair.status));
        hold(name, words, &said, &says::marks(marks), &[]);
        self.pairs += pairs.len() as u64;
    }
}

fn hold_line(name: &str, line: &[u8], pair: &Pair) {
    if line == pair.line.as_bytes() {
        return;
    }
    let shown_file = |name: &str| match std::fs::read(format!("{FILES}/{name}")) {
        Ok(file) => format!("{name} \"{}\"", shown(&file)),
        Err(error) => format!("{name} {error}"),
    };
    let files = format!("{}\n{}", shown_file(&pair.question), shown_file(&pair.answer));
    let (line, expected) = (line.escape_ascii(), pair.line.escape_default());
    fail(name, &format!("a pair\nprinted  \"{line}\"\nexpected \"{expected}\"\n{files}"));
}
