//! Questions and answers as files: in bytes, in text with or without noise, as paths, whole and damaged.

use crate::held::{Held, Refused};
use crate::judge;
use crate::lines::{as_letter, as_number, has_lines, plain, Side};
use crate::noise::noisy;
use crate::{damage, draws, Trial};

/// A question to be drawn answers to.
pub struct Paper {
    pub file: Vec<u8>,
    pub asked: Result<Held, Refused>,
    /// The records of before any damage.
    records: Vec<u8>,
    right: Option<Vec<u8>>,
}

impl Paper {
    pub fn new(file: Vec<u8>, records: Vec<u8>, right: Option<Vec<u8>>) -> Paper {
        Paper { asked: judge::question(&file), file, records, right }
    }
}

impl Trial {
    /// The records as text with or without noise, or as they are where no line stands for one.
    pub fn as_text(&mut self, side: Side, records: &[u8]) -> Vec<u8> {
        if !has_lines(side, records) {
            return records.to_vec();
        }
        if self.random.one_in(3) {
            let style = if side == Side::Question { as_letter } else { as_number };
            return plain(side, records, style).into_bytes();
        }
        let noisy = noisy(&mut self.random, side, records);
        for sort in noisy.sorts {
            self.seen.note(format!("noise: {sort}"));
        }
        noisy.bytes
    }

    pub fn paper(&mut self) -> Paper {
        let random = &mut self.random;
        match random.below(8) {
            0 | 1 => self.paths_paper(),
            2 => {
                let records = draws::free_question(random);
                self.records_paper(records, None)
            }
            3 => {
                let records = draws::letters(random);
                let right = draws::solved(&records);
                self.records_paper(records, right)
            }
            _ => {
                let drawn = draws::planted_question(random);
                self.records_paper(drawn.question, Some(drawn.right))
            }
        }
    }

    fn records_paper(&mut self, records: Vec<u8>, right: Option<Vec<u8>>) -> Paper {
        let damaged = self.random.one_in(2);
        let file = match self.random.below(3) {
            0 if damaged => damage::question(&mut self.random, &records),
            0 => records.clone(),
            _ => {
                let text = self.as_text(Side::Question, &records);
                if damaged {
                    damage::text(&mut self.random, &text)
                } else {
                    text
                }
            }
        };
        Paper::new(file, records, right)
    }

    fn paths_paper(&mut self) -> Paper {
        let text = draws::paths_text(&mut self.random);
        let (records, right) = match judge::paths(&text) {
            Ok(held) => (held.records.clone(), draws::solved(&held.records)),
            Err(_) => (Vec::new(), None),
        };
        let file = if self.random.one_in(3) { questions::paths::damaged_text(&mut self.random, &text) } else { text };
        Paper::new(file, records, right)
    }

    /// Right, nearly right or any, in bytes or in text, whole or damaged.
    pub fn answer(&mut self, paper: &Paper) -> Vec<u8> {
        let mut records = match (&paper.right, self.random.below(4)) {
            (Some(right), 0 | 1) => right.clone(),
            (Some(right), 2) => draws::near_answer(&mut self.random, &paper.records, right),
            _ => draws::any_answer(&mut self.random, &paper.records),
        };
        let damaged = self.random.one_in(2);
        // Damage that keeps to whole records can be written as text too.
        if damaged && self.random.one_in(2) {
            records = damage::answer(&mut self.random, &records);
        }
        let file = if self.random.one_in(3) { records.clone() } else { self.as_text(Side::Answer, &records) };
        if damaged && file != records {
            damage::text(&mut self.random, &file)
        } else {
            file
        }
    }
}
