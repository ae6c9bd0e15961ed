//! Random texts of paths, and all that is asked about each.

use crate::Comparison;
use questions::paths::{damaged_text, nested, pad_to_bytes, pad_to_variables, random_lines, PathMix};
use second::path::{text_of, Path};
use second::translate::translate;
use second::verdict::FillVerdict;

impl Comparison {
    /// One random text and all that is asked about it.
    pub fn path_round(&mut self) {
        let mix = PathMix::random(&mut self.random);
        let number_of_lines = match self.random.below(4) {
            0 => 1 + self.random.below(9),
            1 => self.random.pick(&[8, 8, 9]),
            _ => 1 + self.random.below(2),
        };
        let steps = self.random.pick(&[1, 2, 3, 3, 4, 4, 5, 8, 12, 15, 20, 60]);
        let mut lines = random_lines(&mut self.random, number_of_lines, steps, &mix);
        match self.random.below(6) {
            0 | 1 => {
                let variables = self.random.pick(&[15, 16, 16, 17, 17, 18]);
                pad_to_variables(&mut self.random, &mut lines, variables, &mix);
            }
            2 => {
                let depth = self.random.pick(&[1, 5, 13, 14, 15, 16, 60, 110]);
                let at = self.random.below(lines.len());
                lines[at] = nested(&mut self.random, depth, &mix);
            }
            _ => {}
        }
        if self.random.one_in(6) {
            let bytes = self.random.pick(&[1022, 1023, 1024, 1025, 1026]);
            pad_to_bytes(&mut self.random, &mut lines, bytes);
        }
        let text = text_of(&lines);
        let verdict = self.text("random texts", &text);
        self.text_in_other_case(&lines, &verdict);
        for buffer in [0, 1, 1023] {
            self.paths("random texts and buffers", &text, buffer);
        }
        for buffer in [1025, 2000] {
            self.hold_paths("random texts and buffers", &text, buffer, &verdict);
        }
        for _ in 0..6 {
            let damaged = damaged_text(&mut self.random, &text);
            self.text("damaged texts", &damaged);
            let buffer = self.random.pick(&[0, 1, 1023, 1025, 2000]);
            self.paths("damaged texts", &damaged, buffer);
        }
        if matches!(verdict, FillVerdict::Written(_)) {
            self.selection_round(&lines);
        }
    }

    fn selection_round(&mut self, lines: &[Path]) {
        let variables = translate(lines).variables;
        if variables <= 5 && self.random.one_in(2) {
            self.hold_selection(lines, 2_000);
            self.hold_tree_by_tree(lines, if variables <= 3 { 5 } else { 4 });
        } else if self.random.one_in(8) {
            self.hold_selection(lines, 60);
        }
    }
}
