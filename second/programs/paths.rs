//! Texts of paths: of every length that matters, piped on to `solve`, and in pieces.

use crate::call::{open, written};
use crate::run::in_pieces;
use crate::{hold_verdict, text, Trial, ALLOWANCE};
use second::verdict::SolverVerdict;
use second::{Refusal, LEAST_BUFFER, LEAST_RECORDS_BUFFER};
use std::process::Command;

pub const SELF_A: &[u8] = b"self::a\n";
pub const SEVENTEEN_VARIABLES: &[u8] =
    b"self::*[self::*][self::*][self::*][self::*][self::*][self::*][self::*][self::*][self::*][self::*][self::*][self::*]\
    [self::*][self::*][self::*]\n";

/// A text that is read and has this many bytes, of which there are at least 8: `[/]` has 3, and the axes 4, 5 and 6.
pub fn right_text(length: usize) -> Vec<u8> {
    let axis = ["self", "child", "parent"][(length - 8) % 3];
    format!("{axis}::*{}\n", "[/]".repeat((length - 8) / 3)).into_bytes()
}

impl Trial {
    fn paths_as_second(&mut self, name: &str, lines: &[u8]) {
        self.paths(name, lines, &second::paths(lines, LEAST_RECORDS_BUFFER));
    }

    /// Right texts, and longer ones whose first 1,024 bytes would be read alone; each also without its last byte.
    pub fn lengths_of_texts(&mut self) {
        let mut longest = right_text(1_024);
        for length in [8, 9, 10, 11, 500, 1_000, 1_021, 1_022, 1_023, 1_024, 1_025, 1_026, 1_027, 2_048, 4_096, 5_000] {
            self.paths_as_second(&format!("a text of {length} bytes"), &right_text(length));
            self.paths_as_second(&format!("a text of {length} bytes, cut"), &right_text(length)[..length - 1]);
        }
        for length in [1_025, 1_026, 1_028, 2_048, 4_096, 4_100, 5_000, 70_000] {
            longest.extend(b"/\n".iter().cycle().take(length - longest.len()));
            self.paths_as_second(&format!("1,024 bytes of a text and more, {length} in all"), &longest);
        }
        for length in 0..=SELF_A.len() {
            self.paths_as_second(&format!("{length} bytes of a text"), &SELF_A[..length]);
        }
        for lines in 0..=10 {
            self.paths_as_second(&format!("{lines} lines"), &SELF_A.repeat(lines));
        }
        self.paths_as_second("17 variables", SEVENTEEN_VARIABLES);
    }

    /// `paths < TEXT | solve` is `solve` on the records; a refusal is no constraint file, so that it gets 2.
    pub fn piped_to_solve(&mut self) {
        let texts = [
            &b"/\n"[..],
            SELF_A,
            b"child::a[child::b]/child::c\n",
            b"self::a/self::b\n",
            b"/child::a/child::b/descendant::d\n/child::a/child::c/descendant::d\n",
            b"/child::a/child::b/descendant::d\n/child::a/descendant::c/descendant::d\n",
            b"/self::a\n",
            b"/descendant::a[/child::b]\n",
            b"child::a/following-sibling::b\nchild::*/preceding-sibling::b\n",
            b"/following-sibling::a\n",
            &right_text(1_024),
            &right_text(1_025),
            b"",
            b"self::a",
            SEVENTEEN_VARIABLES,
        ];
        for lines in texts {
            let printed = text::of_fill(&second::paths(lines, LEAST_RECORDS_BUFFER));
            self.piped_on_to_solve(lines, &second::solve(&printed, LEAST_BUFFER, ALLOWANCE));
        }
    }

    pub fn piped_on_to_solve(&mut self, lines: &[u8], verdict: &SolverVerdict) {
        let mut pipe = Command::new("sh");
        pipe.args(["-c", "\"$0\" | \"$1\"", &self.paths, &self.solve]).stdin(open(&written("text", lines)));
        let said = self.run(pipe);
        hold_verdict("paths piped on to solve", &said, text::of_solve(verdict), &[("text", lines)]);
        let said = match verdict {
            SolverVerdict::Tree { .. } => "tree".to_string(),
            SolverVerdict::None { .. } => "none".to_string(),
            SolverVerdict::Spent { .. } => "spent".to_string(),
            SolverVerdict::Refused(Refusal(question)) => format!("refused {question}"),
        };
        self.seen.note(format!("paths: piped on to solve, {said}"));
    }

    /// Texts that come through a pipe, so many bytes at a time.
    pub fn texts_in_pieces(&mut self) {
        let (full, too_long) = (right_text(1_024), right_text(1_025));
        for length in [1, 3, 4, 7, 1_000, 4_096] {
            let name = format!("paths in pieces of {length} bytes");
            for lines in [&[][..], SELF_A, &SELF_A[..7], SEVENTEEN_VARIABLES, &full, &full[..1_023], &too_long] {
                let said = self.run(self.reading_paths(&in_pieces(lines, length)).command());
                let verdict = second::paths(lines, LEAST_RECORDS_BUFFER);
                hold_verdict(&name, &said, text::of_fill(&verdict), &[("text", lines)]);
                self.seen.note("paths: in pieces");
            }
        }
    }
}
