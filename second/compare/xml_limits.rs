//! Trees as XML at their limits, whatever the seed: 64 nodes, 438 bytes, lent buffers, and files and texts that are far too long.

use crate::small_xml_trees::records_of;
use crate::{disagree, Comparison};
use second::tree::Node;
use second::verdict::{hex, FillVerdict};
use second::{Refusal, LEAST_NODES_BUFFER, LEAST_TEXT_BUFFER};

/// Around 256 and 512 bytes, around the longest text, and far below and above.
pub const BUFFERS: [usize; 14] = [0, 1, 8, 255, 256, 257, 437, 438, 439, 511, 512, 513, 600, 70_000];

impl Comparison {
    pub fn xml_limits(&mut self) {
        self.trees_by_size();
        self.texts_by_size();
        self.buffers_of_xml();
        self.long_node_files();
        self.long_texts();
    }

    /// Chains, stars and other shapes of numbers of nodes around 64 and of those that a byte cannot count.
    fn trees_by_size(&mut self) {
        const SORT: &str = "trees by size and shape, written";
        for nodes in (2..=8).chain(60..=68).chain([100, 128, 254, 255, 256, 257, 258, 320, 1_000]) {
            for shape in shapes(nodes) {
                let verdict = self.tree_as_xml(SORT, &records_of(&shape, &labels(nodes - 1)));
                let is_as_expected = match &verdict {
                    FillVerdict::Written(text) => nodes <= 64 && text.len() <= 438,
                    FillVerdict::Refused(refusal) => nodes > 64 && *refusal == Refusal(10),
                };
                if !is_as_expected {
                    disagree(SORT, &format!("{nodes} nodes: {verdict}"));
                }
            }
        }
    }

    /// The same as texts, made without numbers: 63 elements are read, 64 are refused.
    fn texts_by_size(&mut self) {
        const SORT: &str = "texts by size and shape, read";
        for elements in (1..=7).chain(59..=67).chain([99, 127, 255, 256, 257, 1_000]) {
            for text in texts(elements) {
                let verdict = self.text_as_tree(SORT, text.as_bytes());
                let expected = if elements <= 63 { 4 * elements + 4 } else { 0 };
                let is_as_expected = match &verdict {
                    FillVerdict::Written(records) => records.len() == expected,
                    FillVerdict::Refused(refusal) => elements > 63 && *refusal == Refusal(16),
                };
                if !is_as_expected {
                    disagree(SORT, &format!("{elements} elements: {verdict}\ntext {text}"));
                }
                self.xml.note_if(elements == 64, "65 nodes refused with 16");
            }
        }
        let [chain, star, _] = texts(63);
        if (chain.len(), star.len()) != (438, 255) {
            disagree(
                SORT,
                &format!("a chain of {} bytes and a star of {}, by hand 438 and 255", chain.len(), star.len()),
            );
        }
    }

    /// Right and wrong files and texts with every buffer: 17 comes before 15 and 16, and behind 8 to 11.
    fn buffers_of_xml(&mut self) {
        const SORT: &str = "trees as XML and buffers";
        let [shortest, longest] =
            [2, 64].map(|nodes| shapes(nodes).map(|shape| records_of(&shape, &labels(nodes - 1))));
        let no_names = records_of(&[Node(0)], b"_");
        let wrong = [&[1][..], &[2, 0, 0, 0], &[1, 0, 0, 0], &[1, 0, 0, 0, 1, 1, 1, 0], &no_names];
        let files = shortest.iter().chain(&longest).map(Vec::as_slice).chain(wrong);
        let (least, most, too_many) = (texts(1), texts(63), texts(64));
        let texts: Vec<&str> =
            least.iter().chain(&most).chain(&too_many).map(String::as_str).chain(["", "<a></a>"]).collect();
        for file in files {
            let with_enough = self.write_xml(SORT, file, LEAST_TEXT_BUFFER);
            for buffer in BUFFERS {
                let expected = match with_enough {
                    FillVerdict::Refused(Refusal(8..=11)) => with_enough.clone(),
                    _ if buffer < 512 => FillVerdict::Refused(Refusal(17)),
                    _ => with_enough.clone(),
                };
                let said = self.write_xml(SORT, file, buffer);
                hold_by_hand(SORT, buffer, file, &said, &expected);
            }
        }
        for text in texts.iter().map(|text| text.as_bytes()) {
            let with_enough = self.read_xml(SORT, text, LEAST_NODES_BUFFER);
            for buffer in BUFFERS {
                let expected = if buffer < 256 { FillVerdict::Refused(Refusal(17)) } else { with_enough.clone() };
                let said = self.read_xml(SORT, text, buffer);
                hold_by_hand(SORT, buffer, text, &said, &expected);
            }
        }
    }

    /// Far more records than 64, right but for their count, and with what is wrong at the far end.
    fn long_node_files(&mut self) {
        const SORT: &str = "long files of node records";
        for records in [64, 65, 1_024, 1_025, 16_384, 17_500, 262_144] {
            let mut file: Vec<u8> =
                (0..records).flat_map(|at: usize| [1, at as u8, (at as u8).saturating_sub(1), 0]).collect();
            self.write_xml(SORT, &file, LEAST_TEXT_BUFFER);
            for (kind, tail) in [(2, 0), (0, 0), (1, 1), (1, 3), (2, 2)] {
                file[4 * records - 4] = kind;
                file.truncate(4 * records);
                file.extend([1, 0, 0].iter().take(tail));
                for buffer in [0, 512] {
                    self.write_xml(SORT, &file, buffer);
                }
            }
        }
    }

    /// Texts that are no text because of their far end, or are much too long.
    fn long_texts(&mut self) {
        const SORT: &str = "long texts";
        for length in [439, 1_000, 4_096, 70_000, 1_000_000] {
            for part in ["<a>", "<a/>", "</a>", "<", "a", " ", "\n", "\0", "<_><b/></_>"] {
                let long: String = part.chars().cycle().take(length).collect();
                self.no_xml(SORT, long.as_bytes());
                self.no_xml(SORT, format!("<a/>{long}").as_bytes());
                self.no_xml(SORT, format!("{long}<a/>").as_bytes());
                self.no_xml(SORT, format!("<a>{long}</a>").as_bytes());
                self.read_xml(SORT, long.as_bytes(), 255);
            }
        }
    }
}

/// What is expected here hangs on the buffer alone.
fn hold_by_hand(sort: &str, buffer: usize, input: &[u8], said: &FillVerdict, expected: &FillVerdict) {
    if said != expected {
        disagree(sort, &format!("{said}, by hand {expected}\nbuffer {buffer}\ninput {}", hex(input)));
    }
}

/// A chain, a star, two children for each node, and a chain with a leaf beside each of its elements.
fn shapes(nodes: usize) -> [Vec<Node>; 4] {
    let parents =
        |parent: fn(usize) -> usize| (1..nodes).map(|node| Node(if node == 1 { 0 } else { parent(node) })).collect();
    [parents(|node| node - 1), parents(|_| 1), parents(|node| node / 2), parents(|node| node / 2 * 2 - 1)]
}

/// Letters in either case and blanks.
fn labels(elements: usize) -> Vec<u8> {
    b"aZ\0Azm".iter().copied().cycle().take(elements).collect()
}

/// A chain, a star, and a chain of half of them around a star of the others.
fn texts(elements: usize) -> [String; 3] {
    let chain =
        |elements: usize, inside: &str| format!("{}{inside}{}", "<a>".repeat(elements), "</a>".repeat(elements));
    let star = |elements: usize| match elements {
        1 => "<B/>".to_string(),
        _ => format!("<B>{}</B>", "<_/>".repeat(elements - 1)),
    };
    let half = elements / 2;
    [chain(elements - 1, "<a/>"), star(elements), chain(half, &star(elements - half))]
}
