//! Many runs at once into one pipe, as when sheets are marked in parallel: each verdict stays whole.

use crate::call::{nothing, open, written, Call};
use crate::limits::{CHILD_0_1, LISTING, PARENT_AND_CHILD};
use crate::paths::right_text;
use crate::xml::{LEAF, NODES_OF_LEAF};
use crate::{fail, hold_errors, run, text, Trial, ALLOWANCE};
use second::{LEAST_BUFFER, LEAST_RECORDS_BUFFER};
use std::io::Read;
use std::sync::atomic::{AtomicU64, Ordering};

const AT_ONCE: usize = 32;

impl Trial {
    pub fn together(&mut self) {
        let unmet_at_12 = [&CHILD_0_1.repeat(12)[..], &[8, 0, 0, 97]].concat();
        let words = [&*written("constraints", &unmet_at_12), &*written("answer", &PARENT_AND_CHILD)];
        let expected = text::of_mark(&second::mark(&unmet_at_12, &PARENT_AND_CHILD));
        let mark = self.mark.clone();
        self.at_once("mark: at once", 2_000, expected.as_bytes(), || Call::new(&mark, &words, nothing()));

        let path = written("constraints", &LISTING);
        let expected = text::of_solve(&second::solve(&LISTING, LEAST_BUFFER, ALLOWANCE));
        let solve = self.solve.clone();
        self.at_once("solve: at once", 200, expected.as_bytes(), || Call::new(&solve, &[], open(&path)));

        let lines = right_text(100);
        let path = written("text", &lines);
        let expected = text::of_fill(&second::paths(&lines, LEAST_RECORDS_BUFFER));
        let paths = self.paths.clone();
        self.at_once("paths: at once", 200, &expected, || Call::new(&paths, &[], open(&path)));

        let path = written("nodes", &NODES_OF_LEAF);
        let toxml = self.toxml.clone();
        self.at_once("toxml: at once", 200, LEAF, || Call::new(&toxml, &[], open(&path)));

        let path = written("xml", LEAF);
        let fromxml = self.fromxml.clone();
        self.at_once("fromxml: at once", 200, &NODES_OF_LEAF, || Call::new(&fromxml, &[], open(&path)));
    }

    fn at_once(&mut self, name: &str, runs: u64, expected: &[u8], call: impl Fn() -> Call + Sync) {
        let (mut reader, writer) = std::io::pipe().expect("a pipe is made");
        let left = AtomicU64::new(runs);
        let mut printed = Vec::new();
        std::thread::scope(|scope| {
            for _ in 0..AT_ONCE {
                let writer = writer.try_clone().expect("a pipe is lent");
                scope.spawn(|| {
                    let writer = writer;
                    while left.fetch_update(Ordering::Relaxed, Ordering::Relaxed, |left| left.checked_sub(1)).is_ok() {
                        let writer = writer.try_clone().expect("a pipe is lent");
                        hold_errors(name, &run::run_into(writer, call().command()), "");
                    }
                });
            }
            drop(writer);
            reader.read_to_end(&mut printed).expect("a pipe is read");
        });
        hold_repeated(name, &printed, expected, runs);
        self.runs += runs;
        self.seen.note(name);
    }
}

fn hold_repeated(name: &str, printed: &[u8], expected: &[u8], times: u64) {
    let whole = expected.repeat(times as usize);
    if printed == whole {
        return;
    }
    let same = printed.iter().zip(&whole).take_while(|(printed, expected)| printed == expected).count();
    let from = same - same % expected.len();
    let shown = &printed[from..printed.len().min(from + 2 * expected.len())];
    fail(
        name,
        &format!(
            "{} bytes, expected {}; the first of {times} verdicts that is not whole reads {:?}\nexpected {:?}",
            printed.len(),
            whole.len(),
            String::from_utf8_lossy(shown),
            String::from_utf8_lossy(expected),
        ),
    );
}
