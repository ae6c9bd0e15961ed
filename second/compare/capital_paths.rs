//! Texts of paths with capitals, whatever the seed: every two letters as tests, axes that are not small, and short lines on trees labelled in
//! either case.

use crate::small_capitals::LABELS;
use crate::{disagree, Comparison};
use questions::capitals::{capital, small};
use second::path::{text_of, Axis, Path, Step, Test, AXES};
use second::verdict::{FillVerdict, SolverVerdict};
use second::{Refusal, LEAST_BUFFER};

impl Comparison {
    pub fn all_small_paths_with_capitals(&mut self) {
        self.every_two_tests();
        self.capitals_in_axes();
        self.all_short_lines_with_capitals();
    }

    /// Every two letters as tests of one node, by two lines and by two steps: a tree exactly where they are one letter.
    fn every_two_tests(&mut self) {
        const SORT: &str = "every two letters as tests of one node";
        let letters: Vec<u8> = (b'A'..=b'Z').chain(b'a'..=b'z').collect();
        for (first, second) in letters.iter().flat_map(|&first| letters.iter().map(move |&second| (first, second))) {
            let [one, other] = [first, second].map(|letter| step(Axis::Itself, letter));
            let line = |steps: Vec<Step>| Path { from_root: false, steps };
            for lines in [vec![line(vec![one.clone()]), line(vec![other.clone()])], vec![line(vec![one, other])]] {
                let text = text_of(&lines);
                let FillVerdict::Written(records) = self.text(SORT, &text) else {
                    disagree(SORT, &format!("refused\ntext {}", String::from_utf8_lossy(&text)));
                };
                let verdict = self.solve(SORT, &records, LEAST_BUFFER, 0);
                if matches!(verdict, SolverVerdict::Tree { .. }) != (small(first) == small(second)) {
                    disagree(SORT, &format!("{verdict}\ntext {}", String::from_utf8_lossy(&text)));
                }
            }
        }
    }

    /// Axis names stay small: each with one letter or all as capitals is refused. So are two letters as a test.
    fn capitals_in_axes(&mut self) {
        const SORT: &str = "capitals in axes, and two letters";
        let refused = FillVerdict::Refused(Refusal(13));
        for (_, name) in AXES {
            self.hold_text_by_rule(SORT, format!("{}::a\n", name.to_uppercase()).as_bytes(), &refused);
            for at in (0..name.len()).filter(|&at| name.as_bytes()[at] != b'-') {
                let mut text = format!("{name}::A\n").into_bytes();
                text[at] = capital(text[at]);
                self.hold_text_by_rule(SORT, &text, &refused);
            }
        }
        for (first, second) in LABELS.iter().flat_map(|&first| LABELS.iter().map(move |&second| (first, second))) {
            self.hold_text_by_rule(SORT, &[b"self::", &[first, second][..], b"\n"].concat(), &refused);
        }
    }

    /// One step, two steps, one with a bracket and two lines, tests a, A and B.
    fn all_short_lines_with_capitals(&mut self) {
        let steps: Vec<Step> = AXES.iter().flat_map(|&(axis, _)| b"aAB".map(|letter| step(axis, letter))).collect();
        let path =
            |from_root, steps: &[&Step]| Path { from_root, steps: steps.iter().map(|&step| step.clone()).collect() };
        for first in &steps {
            self.lines_with_capitals(&[path(false, &[first])]);
            self.lines_with_capitals(&[path(true, &[first])]);
            for second in &steps {
                let mut with_bracket = first.clone();
                with_bracket.brackets.push(path(false, &[second]));
                self.lines_with_capitals(&[path(false, &[first, second])]);
                self.lines_with_capitals(&[path(true, &[first, second])]);
                self.lines_with_capitals(&[path(false, &[&with_bracket])]);
                self.lines_with_capitals(&[path(false, &[first]), path(false, &[second])]);
            }
        }
    }

    /// Held to the definition on every tree of up to 4 nodes that is labelled in either case, also where no line names a capital.
    fn lines_with_capitals(&mut self, lines: &[Path]) {
        let verdict = self.text("short lines with capitals", &text_of(lines));
        self.text_in_other_case(lines, &verdict);
        self.hold_selection(lines, u32::MAX);
        self.hold_labelled_tree_by_tree(lines, 4, &[0, b'A', b'B', b'a', b'b']);
    }
}

fn step(axis: Axis, letter: u8) -> Step {
    Step { axis, test: Test::Letter(letter), brackets: Vec::new() }
}
