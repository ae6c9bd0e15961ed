//! One pass (document 02, request (iv)), run: a file is split into records read and records to come. The archive's number or n of the whole
//! file is that of the records to come after what is kept of those read, and stays when others of which the same is kept are put in their place.

use crate::small_passes::RECORDS;
use crate::{disagree, Comparison};
use archive::smallest_tree;
use questions::{random_constraint, Mix};
use second::constraint::{self, number_of_variables};
use second::one_pass::{self, onwards, step, NumberOrN, Record, NOTHING_READ};
use second::verdict::{hex, MarkerVerdict, SolverVerdict};
use second::{Refusal, LEAST_BUFFER};

pub const PASSES: [&str; 26] = [
    "refused 3, then good records",
    "refused 4, then good records",
    "refused 5, then good records",
    "refused 6, then good records",
    "refused 3, then another number",
    "refused 4, then another number",
    "refused 5, then another number",
    "refused 6, then another number",
    "refused 3 by a later record",
    "refused 4 by a later record",
    "refused 5 by a later record",
    "refused 6 by a later record",
    "n higher by later records",
    "n not higher by later records",
    "n 0 before the first record",
    "n 16",
    "a refused record that names a higher variable",
    "06001000 refused with 6 after other records",
    "refused 1 by the length, with a bad record",
    "refused 2 by the length, with a bad record",
    "others of which the same is kept",
    "a random question split",
    "a damaged question split, n kept",
    "a damaged question split, a number kept",
    "a damaged question refused with 1 by its length",
    "a damaged question refused with 2 by its length",
];

impl Comparison {
    /// A random question at three random splits.
    pub fn split_question(&mut self, file: &[u8]) {
        for _ in 0..3 {
            let kept = self.split_at_random(file);
            self.passes.note_if(kept.is_ok(), "a random question split");
        }
    }

    /// A damaged question at a random split, or its number where its length refuses it.
    pub fn split_damaged(&mut self, file: &[u8]) {
        if let Err(Refusal(number @ 1..=2)) = one_pass::number_or_n(file) {
            self.hold_length("damaged questions refused by length", file, number);
            return self.passes.note(&format!("a damaged question refused with {number} by its length"));
        }
        let kept = self.split_at_random(file);
        self.passes.note(if kept.is_ok() {
            "a damaged question split, n kept"
        } else {
            "a damaged question split, a number kept"
        });
    }

    /// What the archive keeps of the records read.
    fn split_at_random(&mut self, file: &[u8]) -> NumberOrN {
        const SORT: &str = "questions split at random";
        let records = one_pass::records(file);
        let at = self.random.below(records.len() + 1);
        self.hold_split(SORT, &records, at);
        let kept = own_number_or_n(SORT, &records[..at]);
        let others = self.others(kept, 256 - (records.len() - at));
        self.hold_alone(SORT, &records, at, &others);
        kept
    }

    /// The records before `at` are read, and a file of their own too; those from `at` on are to come.
    pub fn hold_split(&mut self, sort: &'static str, records: &[Record], at: usize) {
        let (read, later) = records.split_at(at);
        let kept = onwards(NOTHING_READ, read);
        self.hold_number_or_n(sort, &read.concat(), kept);
        self.hold_number_or_n(sort, &records.concat(), onwards(kept, later));
        self.hold_alone(sort, records, at, &shortest(own_number_or_n(sort, read)));
        self.note_split(records, at);
    }

    /// "Alone": in place of the records read others, of which the same is kept. The archive's own answers are held to each other; the second
    /// side is asked after that.
    fn hold_alone(&mut self, sort: &'static str, records: &[Record], at: usize, others: &[Record]) {
        let (read, later) = records.split_at(at);
        let others_and_later = [others, later].concat();
        let first = [read, records].map(|records| own_number_or_n(sort, records));
        let other = [others, &others_and_later].map(|records| own_number_or_n(sort, records));
        if first != other {
            let first = format!("{} {}, then {}", hex(&read.concat()), in_words(first[0]), in_words(first[1]));
            let other = format!("{} {}, then {}", hex(&others.concat()), in_words(other[0]), in_words(other[1]));
            disagree(sort, &format!("the archive's own\nfirst {first}\nother {other}\nlater {}", hex(&later.concat())));
        }
        self.hold_number_or_n(sort, &others_and_later.concat(), first[1]);
        self.passes.note_if(others != read, "others of which the same is kept");
    }

    /// As far as the archive's answers tell it: the number by the solver and the marker, n by the places that question 12 wants. Both ways of
    /// the second side must say the same.
    pub fn hold_number_or_n(&mut self, sort: &'static str, file: &[u8], expected: NumberOrN) {
        let (refusal, buffers) = match expected {
            Err(refusal) => (refusal, [0, LEAST_BUFFER]),
            Ok(_) => (Refusal(7), [0, LEAST_BUFFER - 1]),
        };
        for buffer in buffers {
            self.hold_solver(sort, file, buffer, 0, &SolverVerdict::Refused(refusal));
        }
        let collected = constraint::read(file).map(|constraints| number_of_variables(&constraints));
        for (said, how) in
            [(collected, "where the records are collected first"), (one_pass::number_or_n(file), "in one pass")]
        {
            if said != expected {
                not_so(sort, file, expected, &format!("{} {how}", in_words(said)));
            }
        }
        self.hold_marker(sort, file, expected);
    }

    fn hold_marker(&mut self, sort: &'static str, file: &[u8], expected: NumberOrN) {
        let answer_files = match expected {
            Err(_) => vec![vec![], vec![1], smallest_tree(0), smallest_tree(1)],
            Ok(n) => (n.saturating_sub(1)..=n + 1).map(smallest_tree).collect(),
        };
        for answer_file in answer_files {
            let marked = self.mark(sort, file, &answer_file);
            let is_so = match expected {
                Err(refusal) => marked == MarkerVerdict::Refused(refusal),
                Ok(n) => (marked == MarkerVerdict::Refused(Refusal(12))) == (answer_file != smallest_tree(n)),
            };
            if !is_so {
                not_so(sort, file, expected, &format!("the marker says {marked} to {}", hex(&answer_file)));
            }
        }
    }

    /// A file that is too long or ends within a record.
    pub fn hold_length(&mut self, sort: &'static str, file: &[u8], number: u8) {
        self.hold_number_or_n(sort, file, Err(Refusal(number)));
        let has_bad_record = onwards(NOTHING_READ, &one_pass::records(file)).is_err();
        self.passes.note_if(has_bad_record, &format!("refused {number} by the length, with a bad record"));
    }

    /// Random records of which this is kept, at most so many.
    fn others(&mut self, kept: NumberOrN, most: usize) -> Vec<Record> {
        let bad = RECORDS.iter().filter(|(_, alone)| alone.is_err() && *alone == kept);
        let bad: Vec<Record> = bad.map(|(record, _)| *record).collect();
        let mut others = if bad.is_empty() { shortest(kept) } else { vec![self.random.pick(&bad)] };
        let mix = Mix::random(&mut self.random);
        while !others.is_empty() && others.len() < most && !self.random.one_in(8) {
            match kept {
                Ok(n) => {
                    let at = self.random.below(others.len() + 1);
                    others.insert(at, random_constraint(&mut self.random, n, &mix).record());
                }
                // Good ones before the bad one, and anything after it.
                Err(_) if self.random.one_in(2) => {
                    others.insert(0, random_constraint(&mut self.random, 16, &mix).record());
                }
                Err(_) => others.push([0; 4].map(|_: u8| self.random.byte())),
            }
        }
        others
    }

    fn note_split(&mut self, records: &[Record], at: usize) {
        self.passes.note("splits");
        let (read, later) = records.split_at(at);
        let kept = onwards(NOTHING_READ, read);
        match (kept, onwards(kept, later)) {
            (Err(number), _) => self.note_number_kept(number, later),
            (Ok(_), Err(number)) => self.note_refused_later(number, records),
            (Ok(n), Ok(whole)) => {
                self.passes.note_if(whole > n, "n higher by later records");
                self.passes.note_if(whole == n && n > 0 && !later.is_empty(), "n not higher by later records");
                self.passes.note_if(read.is_empty() && !later.is_empty(), "n 0 before the first record");
                self.passes.note_if(whole == 16, "n 16");
            }
        }
    }

    fn note_number_kept(&mut self, Refusal(number): Refusal, later: &[Record]) {
        match onwards(NOTHING_READ, later) {
            Ok(_) if !later.is_empty() => self.passes.note(&format!("refused {number}, then good records")),
            Err(Refusal(other)) if other != number => {
                self.passes.note(&format!("refused {number}, then another number"));
            }
            _ => {}
        }
    }

    fn note_refused_later(&mut self, Refusal(number): Refusal, records: &[Record]) {
        self.passes.note(&format!("refused {number} by a later record"));
        let is_bad = |&record: &Record| step(NOTHING_READ, record).is_err();
        let at = records.iter().position(is_bad).expect("a bad record");
        let [kind, x, y, _] = records[at];
        let highest = if (6..=8).contains(&kind) { x } else { x.max(y) };
        // With 5 and 6 the variables are in range.
        let is_higher = number >= 5 && onwards(NOTHING_READ, &records[..at]).is_ok_and(|n| highest as usize >= n);
        self.passes.note_if(is_higher, "a refused record that names a higher variable");
        let is_root = at > 0 && records[at] == [6, 0, 16, 0] && number == 6;
        self.passes.note_if(is_root, "06001000 refused with 6 after other records");
    }
}

fn not_so(sort: &str, file: &[u8], expected: NumberOrN, how: &str) -> ! {
    disagree(sort, &format!("{}, yet {how}\nconstraints {}", in_words(expected), hex(file)))
}

/// The archive's.
fn own_number_or_n(sort: &str, records: &[Record]) -> NumberOrN {
    archive::number_or_n(&records.concat()).unwrap_or_else(|disagreement| disagree(sort, &disagreement.0))
}

/// The shortest records of which this is kept.
pub fn shortest(kept: NumberOrN) -> Vec<Record> {
    match kept {
        Ok(0) => vec![],
        Ok(n) => vec![[7, n as u8 - 1, 0, 0]],
        Err(Refusal(3)) => vec![[0, 0, 0, 0]],
        Err(Refusal(4)) => vec![[7, 16, 0, 0]],
        Err(Refusal(5)) => vec![[8, 0, 0, 0]],
        Err(_) => vec![[7, 0, 1, 0]],
    }
}

fn in_words(number_or_n: NumberOrN) -> String {
    match number_or_n {
        Ok(n) => format!("n {n}"),
        Err(Refusal(number)) => format!("refused {number}"),
    }
}
