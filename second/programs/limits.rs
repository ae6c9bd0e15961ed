//! Files of every length that matters, every number that is printed, and files that come in pieces.

use crate::call::{written, Call};
use crate::run::in_pieces;
use crate::{hold_verdict, text, Trial, ALLOWANCE};
use second::LEAST_BUFFER;

/// One node, which question 10 refuses.
pub const NODE_0: [u8; 4] = [1, 0, 0, 0];
pub const CHILD_0_1: [u8; 4] = [1, 0, 1, 0];
/// Node 1 under node 0, with variable 0 on node 0 and variable 1 on node 1.
pub const PARENT_AND_CHILD: [u8; 16] = [1, 0, 0, 0, 1, 1, 0, 0, 2, 0, 0, 0, 2, 1, 1, 0];
/// Of each kind, in order, a record that this does not meet.
const UNMET: [[u8; 4]; 9] = [
    [1, 1, 0, 0],
    [2, 1, 0, 0],
    [3, 1, 0, 0],
    [4, 0, 1, 0],
    [5, 0, 0, 0],
    [6, 1, 0, 0],
    [7, 0, 0, 0],
    [8, 0, 0, 97],
    [9, 0, 1, 0],
];
/// Document 01's listing, M10.
pub const LISTING: [u8; 16] = [6, 1, 0, 0, 1, 1, 2, 0, 2, 0, 2, 0, 5, 0, 1, 0];

impl Trial {
    fn solve_as_second(&mut self, name: &str, constraints: &[u8]) {
        self.solve(name, constraints, &second::solve(constraints, LEAST_BUFFER, ALLOWANCE));
    }

    fn mark_as_second(&mut self, name: &str, constraints: &[u8], answer: &[u8]) {
        self.mark(name, constraints, answer, &second::mark(constraints, answer));
    }

    /// The first 1,024 bytes of the longer files would be accepted alone.
    pub fn lengths_of_constraints(&mut self) {
        for length in [0, 1, 3, 4, 5, 1_020, 1_023, 1_024, 1_025, 1_026, 1_028, 2_048, 4_096, 4_100, 5_000, 70_000] {
            let file: Vec<u8> = CHILD_0_1.into_iter().cycle().take(length).collect();
            let name = format!("constraints of {length} bytes");
            self.solve_as_second(&name, &file);
            self.mark_as_second(&name, &file, &PARENT_AND_CHILD);
            self.mark_as_second(&name, &file, &NODE_0);
            self.mark_as_second(&name, &file, &PARENT_AND_CHILD[..8]);
        }
    }

    pub fn every_label(&mut self) {
        for label in 1..=255 {
            self.solve_as_second(&format!("label {label}"), &[8, 0, 0, label]);
        }
    }

    /// In a file of 256 records that are met but one.
    pub fn every_position(&mut self) {
        for position in 0..256 {
            let mut file = CHILD_0_1.repeat(256);
            file[4 * position..][..4].copy_from_slice(&UNMET[position % UNMET.len()]);
            self.mark_as_second(&format!("unmet at {position}"), &file, &PARENT_AND_CHILD);
        }
    }

    /// Around multiples of 4,096 bytes and far above, of four sorts: nodes alone; two nodes and places; the same with a last record of
    /// kind 3; the same with a node for the last record.
    pub fn lengths_of_answers(&mut self) {
        let mut lengths = vec![0, 1, 4, 15, 16, 17, 20, 256, 260, 1_000];
        for around in [4_096, 8_192, 12_288, 65_536] {
            lengths.extend(around - 5..=around + 5);
        }
        lengths.extend([100_000, 999_999, 1_000_000]);
        for length in lengths {
            let nodes: Vec<u8> = [1, 0, 0, 0].into_iter().cycle().take(length).collect();
            let places: Vec<u8> =
                PARENT_AND_CHILD.into_iter().chain([2, 2, 0, 0].into_iter().cycle()).take(length).collect();
            let with_last = |last: u8| {
                let mut answer = places.clone();
                if let Some(start) = (length / 4).checked_sub(1) {
                    answer[4 * start] = last;
                }
                answer
            };
            for (sort, answer) in
                [("nodes", &nodes), ("places", &places), ("kind 3 last", &with_last(3)), ("a node last", &with_last(1))]
            {
                self.mark_as_second(&format!("an answer of {length} bytes, {sort}"), &CHILD_0_1, answer);
            }
        }
    }

    /// Files that come through a pipe, so many bytes at a time.
    pub fn pieces(&mut self) {
        let full = CHILD_0_1.repeat(256);
        let too_long = CHILD_0_1.repeat(257);
        let long_answer: Vec<u8> = [&PARENT_AND_CHILD[..], &[2, 2, 0, 0].repeat(2_000), &NODE_0].concat();
        for length in [1, 3, 4, 7, 1_000, 4_096] {
            let name = format!("in pieces of {length} bytes");
            for file in [&[][..], &LISTING, &LISTING[..15], &full, &full[..1_023], &too_long[..1_025], &too_long] {
                let said = self.run(self.solving(&in_pieces(file, length)).command());
                let verdict = second::solve(file, LEAST_BUFFER, ALLOWANCE);
                hold_verdict(&name, &said, text::of_solve(&verdict), &[("constraints", file)]);
                self.seen.note("solve: in pieces");
            }
            for file in [&[][..], &CHILD_0_1, &full, &too_long[..1_025], &UNMET.concat()] {
                let words = ["/dev/stdin", &written("answer", &PARENT_AND_CHILD)];
                let call = Call::new(&self.mark, &words, in_pieces(file, length));
                self.mark_in_pieces(&name, call, file, &PARENT_AND_CHILD);
            }
            for answer in [&[][..], &NODE_0, &PARENT_AND_CHILD, &PARENT_AND_CHILD[..15], &long_answer] {
                let words = [&written("constraints", &CHILD_0_1), "/dev/stdin"];
                let call = Call::new(&self.mark, &words, in_pieces(answer, length));
                self.mark_in_pieces(&name, call, &CHILD_0_1, answer);
            }
        }
    }

    fn mark_in_pieces(&mut self, name: &str, call: Call, constraints: &[u8], answer: &[u8]) {
        let said = self.run(call.command());
        let verdict = second::mark(constraints, answer);
        hold_verdict(name, &said, text::of_mark(&verdict), &[("constraints", constraints), ("answer", answer)]);
        self.seen.note("mark: in pieces");
    }
}
