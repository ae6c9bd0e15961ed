//! Capitals (document 02, request (vi)): what the three programs say of them, worked out by hand.

use crate::Trial;
use second::verdict::{FillVerdict, MarkerVerdict, SolverVerdict};
use second::Refusal;

const NONE: SolverVerdict = SolverVerdict::None { count: 0 };
const UNMET: MarkerVerdict = MarkerVerdict::Unmet { position: 0, kind: 8 };

impl Trial {
    pub fn capitals_solved(&mut self) {
        let one_node = |label| SolverVerdict::Tree { count: 0, answer: drawn(label) };
        for (labels, verdict) in [
            (&[65][..], one_node(97)),
            (&[65, 97], one_node(97)),
            (&[122, 90], one_node(122)),
            (&[64], one_node(64)),
            (&[65, 98], NONE),
            (&[64, 96], NONE),
            (&[91, 123], NONE),
        ] {
            let file: Vec<u8> = labels.iter().flat_map(|&label| [8, 0, 0, label]).collect();
            self.solve(&format!("labels {labels:?} on one variable"), &file, &verdict);
        }
    }

    pub fn capitals_marked(&mut self) {
        for (asked, label, verdict) in [
            (97, 65, MarkerVerdict::Met),
            (65, 97, MarkerVerdict::Met),
            (90, 90, MarkerVerdict::Met),
            (97, 66, UNMET),
            (65, 98, UNMET),
            (96, 64, UNMET),
            (91, 123, UNMET),
        ] {
            self.mark(&format!("{label} drawn, {asked} asked"), &[8, 0, 0, asked], &drawn(label), &verdict);
        }
    }

    pub fn capitals_in_paths(&mut self) {
        let written = |letter| FillVerdict::Written(vec![4, 1, 0, 0, 8, 0, 0, letter]);
        let refused = FillVerdict::Refused(Refusal(13));
        self.paths("a capital as test", b"self::A\n", &written(b'A'));
        self.paths("the last capital as test", b"self::Z\n", &written(b'Z'));
        for text in [&b"SELF::a\n"[..], b"self::@\n", b"self::[\n", b"self::AA\n"] {
            self.paths("capitals that are no test", text, &refused);
        }
    }

    /// `paths < TEXT | solve`.
    pub fn capitals_piped(&mut self) {
        let two_elements = [1, 0, 0, 0, 1, 1, 0, 0, 1, 2, 1, 97, 2, 0, 2, 0, 2, 1, 1, 0, 2, 2, 2, 0];
        let tree = SolverVerdict::Tree { count: 0, answer: two_elements.to_vec() };
        self.piped_on_to_solve(b"child::A/self::a\n", &tree);
        self.piped_on_to_solve(b"child::a/self::A\n", &tree);
        self.piped_on_to_solve(b"self::D\nself::I\n", &NONE);
        self.piped_on_to_solve(b"/self::A\n", &NONE);
        self.piped_on_to_solve(b"SELF::a\n", &SolverVerdict::Refused(Refusal(2)));
    }
}

/// The document node, one element with this label, and variable 0 on it.
fn drawn(label: u8) -> Vec<u8> {
    vec![1, 0, 0, 0, 1, 1, 0, label, 2, 0, 1, 0]
}
