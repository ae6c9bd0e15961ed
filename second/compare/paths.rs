//! Texts of paths that are compared whatever the seed: all small ones, those one byte away from right ones, and those at the limits.

use crate::{disagree, Comparison};
use second::path::{self, text_of, Path, Step, Test, AXES};
use second::translate::translate;
use second::verdict::{hex, FillVerdict};
use second::{Refusal, LEAST_RECORDS_BUFFER};

const ROOT_ALONE: Path = Path { from_root: true, steps: Vec::new() };

/// Right texts that have every word of the form in every place.
const RIGHT: [&str; 20] = [
    "/\n",
    "/\n/\n",
    "self::a\n",
    "/self::*\n",
    "child::a[child::b]/child::c\n",
    "child::A[child::b]/child::C\n",
    "/child::a/parent::*\n",
    "descendant::z[/]\n",
    "descendant::Z[/self::m][child::M]\n",
    "ancestor::a[/self::b]\n",
    "descendant-or-self::a\n/\n",
    "ancestor-or-self::*[self::*][/]\n",
    "descendant::*/ancestor-or-self::z\n",
    "self::*[self::a[self::b[/]]]\n",
    "following-sibling::a[preceding-sibling::*]\n",
    "/child::*/preceding-sibling::z[/following-sibling::b]\n",
    "child::*[parent::a/child::b][/child::c/child::d]/child::e\nchild::f\n",
    "/\n/\n/\n/\n/\n/\n/\n/\n",
    "self::a\nself::a\nself::a\nself::a\nself::a\nself::a\nself::a\nself::a\n",
    "self::*/self::*/self::*/self::*/self::*/self::*/self::*/self::*/self::*/self::*/self::*/self::*/self::*/self::*/self::*\n",
];

/// The bytes of the form, those beside them, and some that look alike.
const BYTES: [u8; 33] = [
    0, 9, 10, 11, 13, 32, 41, 42, 43, 45, 46, 47, 48, 57, 58, 59, 64, 65, 90, 91, 92, 93, 94, 95, 96, 97, 115, 122,
    123, 124, 127, 128, 255,
];

impl Comparison {
    pub fn paths(&mut self, sort: &'static str, text: &[u8], buffer: usize) -> FillVerdict {
        let verdict = second::paths(text, buffer);
        self.hold_paths(sort, text, buffer, &verdict);
        verdict
    }

    pub fn hold_paths(&mut self, sort: &'static str, text: &[u8], buffer: usize, expected: &FillVerdict) {
        if let Err(disagreement) = archive::hold_paths(text, buffer, expected) {
            disagree(sort, &disagreement.0);
        }
        match expected {
            FillVerdict::Written(_) => self.tally(sort, "paths written".to_string()),
            FillVerdict::Refused(Refusal(question)) => self.tally(sort, format!("paths refused {question}")),
        }
    }

    /// With a buffer that is long enough; what came up is noted, and the text must be what its syntax is printed as.
    pub fn text(&mut self, sort: &'static str, text: &[u8]) -> FillVerdict {
        let verdict = self.paths(sort, text, LEAST_RECORDS_BUFFER);
        let written = matches!(verdict, FillVerdict::Written(_));
        self.note(if written { "bytes written" } else { "bytes refused" }, text.len());
        if let Some(lines) = path::read(text) {
            if text_of(&lines) != text {
                disagree(sort, &format!("read as another text\nbytes {}", hex(text)));
            }
            let variables = translate(&lines).variables;
            self.note(if written { "variables written" } else { "variables refused" }, variables);
            if written {
                self.note("lines", lines.len());
                lines.iter().for_each(|line| self.note_path(line, false));
            }
        }
        verdict
    }

    pub fn all_small_paths(&mut self) {
        self.all_short_lines();
        self.all_pairs_of_lines();
        self.all_words("every text of up to 5 bytes of the form", &["/", "\n", "[", "]", "*", ":", "a"], 5);
        self.all_words("every text of up to 7 words", &["/", "\n", "[", "]", "self::a"], 7);
        self.all_words("every text of up to 5 words, two names", &["/", "\n", "[", "]", "self", "child", "::", "*"], 5);
        self.one_byte_away();
        self.every_byte_as_test();
        self.lines_and_lengths();
    }

    /// Every line of up to two steps with at most one bracket. The definition is always asked where there is one step or no bracket, else
    /// of every twenty-fourth.
    fn all_short_lines(&mut self) {
        for (at, line) in with_one_bracket(&plain_lines()).into_iter().enumerate() {
            let is_plain = line.steps.len() < 2 || line.steps.iter().all(|step| step.brackets.is_empty());
            let lines = [line];
            self.text("every line of up to two steps with at most one bracket", &text_of(&lines));
            if is_plain || at % 24 == 0 {
                self.ask_definition(&lines);
            }
        }
    }

    /// The definition is asked of two short ones always, else of every sixteenth pair.
    fn all_pairs_of_lines(&mut self) {
        let lines = plain_lines();
        let is_short = |line: &Path| line.steps.len() < 2;
        for first in lines.iter().filter(|line| is_short(line)) {
            for (at, second) in lines.iter().enumerate() {
                let pair = [first.clone(), second.clone()];
                self.text("every line of up to one step before every one of up to two", &text_of(&pair));
                if is_short(second) || at % 16 == 0 {
                    self.ask_definition(&pair);
                }
            }
        }
    }

    fn ask_definition(&mut self, lines: &[Path]) {
        self.hold_selection(lines, u32::MAX);
        self.hold_tree_by_tree(lines, 4);
    }

    /// Shorter ones first.
    fn all_words(&mut self, sort: &'static str, words: &[&str], most: usize) {
        let mut texts: Vec<Vec<u8>> = vec![Vec::new()];
        for _ in 0..=most {
            for text in &texts {
                self.text(sort, text);
            }
            let longer = |text: &Vec<u8>| words.iter().map(|word| [text, word.as_bytes()].concat()).collect::<Vec<_>>();
            texts = texts.iter().flat_map(longer).collect();
        }
    }

    fn one_byte_away(&mut self) {
        for right in RIGHT.map(str::as_bytes) {
            self.text("right texts", right);
            for buffer in [0, 1, 1023, 1024, 1025, 2000] {
                self.paths("right texts and buffers", right, buffer);
            }
            for at in 0..=right.len() {
                let (front, back) = right.split_at(at);
                self.text("right texts cut short", front);
                for byte in BYTES {
                    self.text("right texts with a byte more", &[front, &[byte], back].concat());
                    if let Some((_, after)) = back.split_first() {
                        self.text("right texts with a byte changed", &[front, &[byte], after].concat());
                    }
                }
                if let Some((_, after)) = back.split_first() {
                    self.text("right texts with a byte less", &[front, after].concat());
                }
            }
        }
    }

    /// A letter is written as the byte that stands in the text, `*` writes no label, and no other byte is a test.
    fn every_byte_as_test(&mut self) {
        const SORT: &str = "every byte as a test";
        let outside = ("self::", "\n", vec![4, 1, 0, 0], 0);
        let in_brackets = ("child::*[parent::", "]\n", vec![1, 1, 0, 0, 1, 2, 0, 0], 2);
        for (front, back, axis_records, reached) in [outside, in_brackets] {
            for byte in 0..=255u8 {
                let expected = match byte {
                    b'*' => FillVerdict::Written(axis_records.clone()),
                    _ if byte.is_ascii_alphabetic() => {
                        FillVerdict::Written([&axis_records[..], &[8, reached, 0, byte]].concat())
                    }
                    _ => FillVerdict::Refused(Refusal(13)),
                };
                self.hold_text_by_rule(SORT, &[front.as_bytes(), &[byte], back.as_bytes()].concat(), &expected);
            }
        }
    }

    pub fn hold_text_by_rule(&mut self, sort: &'static str, text: &[u8], expected: &FillVerdict) {
        let said = self.text(sort, text);
        if said != *expected {
            let text = String::from_utf8_lossy(text);
            disagree(sort, &format!("{said}, by the rule {expected}\ntext {text}"));
        }
    }

    /// Up to 20 lines, lengths around 1,024 bytes and far above, brackets as deep as the text allows, with every buffer.
    fn lines_and_lengths(&mut self) {
        const SORT: &str = "texts by lines, length and depth";
        let mut texts: Vec<Vec<u8>> = Vec::new();
        for line in ["/\n", "self::a\n", "/child::*\n", "self::*[/]\n", "\n"] {
            texts.extend((0..=20).map(|lines| line.repeat(lines).into_bytes()));
            texts.extend([100, 1_000, 100_000].map(|lines| line.repeat(lines).into_bytes()));
        }
        for head in ["self::*", "child::*", "parent::*"] {
            for brackets in 330..=345 {
                texts.push(format!("{head}{}\n", "[/]".repeat(brackets)).into_bytes());
                texts.push(format!("{head}{}\n", "[/self::*]".repeat(brackets - 230)).into_bytes());
            }
        }
        for depth in (0..20).chain(100..130) {
            texts.push(format!("self::*{}{}\n", "[self::*".repeat(depth), "]".repeat(depth)).into_bytes());
            texts.push(format!("self::*{}[/]{}\n", "[/self::*".repeat(depth), "]".repeat(depth)).into_bytes());
        }
        for text in &texts {
            self.text(SORT, text);
            for buffer in [0, 1, 1023, 1024, 1025, 2000] {
                self.paths(SORT, text, buffer);
            }
        }
    }
}

/// Every axis with the tests a, b and `*`.
fn plain_steps() -> Vec<Step> {
    let tests = [Test::Letter(b'a'), Test::Letter(b'b'), Test::Any];
    let step = |axis, test| Step { axis, test, brackets: Vec::new() };
    AXES.iter().flat_map(|&(axis, _)| tests.map(|test| step(axis, test))).collect()
}

fn one_step_lines(from_root: bool) -> impl Iterator<Item = Path> {
    plain_steps().into_iter().map(move |step| Path { from_root, steps: vec![step] })
}

/// `/`, every line of one plain step, every line of two; from any node and from the root.
fn plain_lines() -> Vec<Path> {
    let mut lines = vec![ROOT_ALONE];
    for from_root in [false, true] {
        lines.extend(one_step_lines(from_root));
        for first in plain_steps() {
            let with_second = |second| Path { from_root, steps: vec![first.clone(), second] };
            lines.extend(plain_steps().into_iter().map(with_second));
        }
    }
    lines.sort_by_key(|line| line.steps.len());
    lines
}

/// The lines as they are, then each with one bracket behind each of its steps: `/`, one step, or one step from the root.
fn with_one_bracket(plain: &[Path]) -> Vec<Path> {
    let insides: Vec<Path> =
        [ROOT_ALONE].into_iter().chain(one_step_lines(false)).chain(one_step_lines(true)).collect();
    let mut lines = plain.to_vec();
    for line in plain {
        for at in 0..line.steps.len() {
            for inside in &insides {
                let mut line = line.clone();
                line.steps[at].brackets.push(inside.clone());
                lines.push(line);
            }
        }
    }
    lines
}
