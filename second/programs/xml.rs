//! Trees as XML: `toxml` and `fromxml` on files and texts of every length that matters, in pieces, and piped into each other and on to `mark`.

use crate::call::{open, written, Call};
use crate::run::in_pieces;
use crate::{hold_read, hold_verdict, text, Trial};
use second::verdict::{FillVerdict, MarkerVerdict};
use second::{Refusal, LEAST_NODES_BUFFER, LEAST_TEXT_BUFFER};
use std::fs::File;
use std::process::Command;

/// The document node and one element, a.
pub const NODES_OF_LEAF: [u8; 8] = [1, 0, 0, 0, 1, 1, 0, b'a'];
pub const LEAF: &[u8] = b"<a/>";
/// A tree that is numbered by depth, its text, and its nodes in document order, worked out by hand.
const BY_DEPTH: [u8; 24] = [1, 0, 0, 0, 1, 1, 0, 0, 1, 2, 1, b'b', 1, 3, 1, b'C', 1, 4, 2, b'd', 1, 5, 3, b'E'];
const ITS_TEXT: &[u8] = b"<_><b><d/></b><C><E/></C></_>";
const IN_ORDER: [u8; 24] = [1, 0, 0, 0, 1, 1, 0, 0, 1, 2, 1, b'b', 1, 3, 2, b'd', 1, 4, 1, b'C', 1, 5, 4, b'E'];
/// Refused with 15.
const NO_NAME: [u8; 8] = [1, 0, 0, 0, 1, 1, 0, b'_'];
/// Refused with 16.
const NO_TEXT: &[u8] = b"<a></a>";

/// Node records of a chain of elements a: right from 2 to 64 nodes.
fn chain_of_nodes(nodes: usize) -> Vec<u8> {
    (0..nodes)
        .flat_map(|node| [1, node as u8, (node as u8).saturating_sub(1), if node == 0 { 0 } else { b'a' }])
        .collect()
}

/// The text of a chain of so many elements; 63 of them have 438 bytes.
fn chain_of_tags(elements: usize) -> Vec<u8> {
    [b"<a>".repeat(elements - 1), LEAF.to_vec(), b"</a>".repeat(elements - 1)].concat()
}

/// What either program says with a buffer that is long enough, as `toxml` and `fromxml` have it.
pub fn as_second(program: &str, input: &[u8]) -> FillVerdict {
    match program {
        "toxml" => second::xml_write(input, LEAST_TEXT_BUFFER),
        _ => second::xml_read(input, LEAST_NODES_BUFFER),
    }
}

impl Trial {
    /// The open file has one position, here and in the program.
    pub fn converting(&self, program: &str, input: &File) -> Call {
        let path = if program == "toxml" { &self.toxml } else { &self.fromxml };
        Call::new(path, &[], input.try_clone().expect("an open file is lent"))
    }

    /// Holds `toxml` to the bytes of a verdict, and to reading its input to the end: only there is question 8 answered.
    pub fn toxml(&mut self, name: &str, nodes: &[u8], verdict: &FillVerdict) {
        let input = open(&written("nodes", nodes));
        let said = self.run(self.converting("toxml", &input).command());
        hold_verdict(name, &said, text::of_fill(verdict), &[("nodes", nodes)]);
        hold_read(name, input, nodes, usize::MAX);
        self.seen.toxml(nodes, verdict);
    }

    /// Holds `fromxml` to the bytes of a verdict. How much of a text it reads that is no text in any case is its own affair.
    pub fn fromxml(&mut self, name: &str, xml: &[u8], verdict: &FillVerdict) {
        let input = open(&written("xml", xml));
        let said = self.run(self.converting("fromxml", &input).command());
        hold_verdict(name, &said, text::of_fill(verdict), &[("xml", xml)]);
        self.seen.fromxml(xml, verdict);
    }

    /// Where nothing is worked out by hand, the second writer is asked.
    fn toxml_as_second(&mut self, name: &str, nodes: &[u8]) {
        self.toxml(name, nodes, &as_second("toxml", nodes));
    }

    /// The second reader likewise.
    fn fromxml_as_second(&mut self, name: &str, xml: &[u8]) {
        self.fromxml(name, xml, &as_second("fromxml", xml));
    }

    /// Nodes alone, a place or kind 0 for the last record, and a length that is no multiple of 4, around 64 nodes and multiples of 4,096 bytes
    /// and far above.
    pub fn lengths_of_nodes(&mut self) {
        let mut lengths = vec![0, 1, 2, 3, 4, 5, 8, 9, 12, 252, 255, 256, 257, 259, 260, 261, 512, 1_024, 1_025, 1_028];
        for around in [4_096, 8_192, 65_536] {
            lengths.extend(around - 5..=around + 5);
        }
        lengths.extend([70_000, 100_000, 999_999, 1_000_000, 1_000_001]);
        for length in lengths {
            let mut nodes = chain_of_nodes(length / 4 + 1);
            nodes.truncate(length);
            self.toxml_as_second(&format!("{length} bytes of nodes"), &nodes);
            for last in [2, 0] {
                if let Some(start) = (length / 4).checked_sub(1) {
                    nodes[4 * start] = last;
                    self.toxml_as_second(&format!("{length} bytes of nodes, the last record of kind {last}"), &nodes);
                }
            }
        }
    }

    /// Right texts, and others that are right but for what comes after them, before them or in the middle, as far away as may be.
    pub fn lengths_of_xml(&mut self) {
        for elements in [1, 2, 3, 10, 61, 62, 63, 64, 65, 100, 586, 10_000, 150_000] {
            let chain = chain_of_tags(elements);
            self.fromxml_as_second(&format!("a chain of {elements}"), &chain);
            self.fromxml_as_second(&format!("a chain of {elements} and a newline"), &[&chain[..], b"\n"].concat());
            self.fromxml_as_second(&format!("a chain of {elements} cut short"), &chain[..chain.len() - 1]);
            let star = [b"<_>", &b"<B/>".repeat(elements)[..], b"</_>"].concat();
            self.fromxml_as_second(&format!("{elements} in one"), &star);
        }
        let longest = chain_of_tags(63);
        for length in
            [0, 1, 2, 3, 437, 439, 440, 512, 1_024, 1_025, 4_095, 4_096, 4_097, 8_192, 65_536, 70_000, 1_000_000]
        {
            for filling in [" ", "\n", "\0", "<a/>", "<"] {
                let more: Vec<u8> = filling.bytes().cycle().take(length).collect();
                self.fromxml_as_second(&format!("{length} bytes more behind"), &[&longest[..], &more].concat());
                self.fromxml_as_second(&format!("{length} bytes more in front"), &[&more[..], LEAF].concat());
            }
        }
        for length in 0..=ITS_TEXT.len() {
            self.fromxml_as_second(&format!("{length} bytes of a text"), &ITS_TEXT[..length]);
        }
    }

    /// Worked out by hand: one tree both ways, every question refused, and letters beside the others.
    pub fn trees_by_hand(&mut self) {
        let refused = |question| FillVerdict::Refused(Refusal(question));
        self.toxml("a tree by depth", &BY_DEPTH, &FillVerdict::Written(ITS_TEXT.to_vec()));
        self.toxml("a tree in document order", &IN_ORDER, &FillVerdict::Written(ITS_TEXT.to_vec()));
        self.fromxml("a text of five elements", ITS_TEXT, &FillVerdict::Written(IN_ORDER.to_vec()));
        for (nodes, question) in [
            (&NODES_OF_LEAF[..7], 8),
            (&[1, 0, 0, 0, 1, 1, 0, 97, 2, 0, 1, 0], 9),
            (&[], 10),
            (&[1, 0, 0, 0], 10),
            (&chain_of_nodes(65), 10),
            (&[1, 0, 0, 0, 1, 1, 1, 0], 11),
            (&NO_NAME, 15),
        ] {
            self.toxml("nodes that are refused", nodes, &refused(question));
        }
        for xml in [&b""[..], NO_TEXT, b"<a/>\n", b" <a/>", b"<a><b/></c>", b"<a/><a/>", &chain_of_tags(64)] {
            self.fromxml("a text that is refused", xml, &refused(16));
        }
        for label in 0..=255 {
            self.toxml_as_second(&format!("label {label}"), &[1, 0, 0, 0, 1, 1, 0, label]);
            self.fromxml_as_second(&format!("name {label}"), &[b'<', label, b'/', b'>']);
        }
    }

    /// Inputs that come through a pipe, so many bytes at a time.
    pub fn xml_in_pieces(&mut self) {
        let (full, too_many) = (chain_of_nodes(64), chain_of_nodes(65));
        let long = [&chain_of_nodes(1_100)[..], &[2, 0, 0, 0]].concat();
        let (longest, too_long) = (chain_of_tags(63), chain_of_tags(64));
        let nodes = [&[][..], &BY_DEPTH, &BY_DEPTH[..23], &NO_NAME, &full, &too_many, &long, &long[..4_403]];
        let texts = [&[][..], ITS_TEXT, &ITS_TEXT[..28], b"<a/>\n", &longest, &longest[..437], &too_long];
        for length in [1, 3, 4, 7, 1_000, 4_096] {
            for input in nodes {
                self.piece_by_piece("toxml", input, length);
            }
            for input in texts {
                self.piece_by_piece("fromxml", input, length);
            }
        }
    }

    /// A read call may give less than there is.
    fn piece_by_piece(&mut self, program: &str, input: &[u8], length: usize) {
        let said = self.run(self.converting(program, &in_pieces(input, length)).command());
        let name = format!("{program} in pieces of {length} bytes");
        hold_verdict(&name, &said, text::of_fill(&as_second(program, input)), &[("input", input)]);
        self.seen.note(format!("{program}: in pieces"));
    }

    /// Each into the other, and `fromxml` on to `mark`: what is read is an answer without places. A refusal is neither text nor records.
    pub fn xml_piped(&mut self) {
        let (full, longest) = (chain_of_nodes(64), chain_of_tags(63));
        for (nodes, expected) in [
            (&BY_DEPTH[..], text::of_fill(&FillVerdict::Written(IN_ORDER.to_vec()))),
            (&NODES_OF_LEAF, NODES_OF_LEAF.to_vec()),
            (&full, full.clone()),
            (&NO_NAME, b"refused 16\n".to_vec()),
            (&[], b"refused 16\n".to_vec()),
        ] {
            self.piped("toxml", "fromxml", nodes, &expected);
        }
        for (xml, expected) in [(ITS_TEXT, ITS_TEXT), (LEAF, LEAF), (&longest, &longest), (NO_TEXT, b"refused 8\n")] {
            self.piped("fromxml", "toxml", xml, expected);
        }
        for (xml, verdict) in [(ITS_TEXT, MarkerVerdict::Met), (NO_TEXT, MarkerVerdict::Refused(Refusal(8)))] {
            self.piped("fromxml", "mark", xml, text::of_mark(&verdict).as_bytes());
        }
    }

    /// `mark` has its two files as arguments, no constraint and the answer that it reads.
    fn piped(&mut self, from: &str, to: &str, input: &[u8], expected: &[u8]) {
        let path = |program: &str| match program {
            "toxml" => self.toxml.clone(),
            "fromxml" => self.fromxml.clone(),
            _ => self.mark.clone(),
        };
        let script = if to == "mark" { "\"$0\" | \"$1\" /dev/null /dev/stdin" } else { "\"$0\" | \"$1\"" };
        let mut pipe = Command::new("sh");
        pipe.args(["-c", script, &path(from), &path(to)]).stdin(open(&written("input", input)));
        let said = self.run(pipe);
        hold_verdict(&format!("{from} piped on to {to}"), &said, expected, &[("input", input)]);
        let how = if expected.starts_with(b"refused") { "refused" } else { "as written" };
        self.seen.note(format!("{from}: piped on to {to}, {how}"));
    }
}
