//! Trees as XML, whatever the seed: every small tree in every numbering, every label, every small file of node records, right or not, and
//! every choice of what can be wrong with one.

use crate::ordered::{Element, CATALAN};
use crate::xml::shown;
use crate::{disagree, Comparison};
use second::tree::Node;
use second::verdict::{hex, FillVerdict};
use second::{answer, brute, Refusal, LEAST_TEXT_BUFFER};
use std::collections::BTreeMap;

/// Both ends of the capitals and of the small letters, the bytes beside them, the name of a blank with those beside it, and both ends of all.
const LABELS_AT_LIMITS: [u8; 13] = [0, 1, 64, 65, 90, 91, 94, 95, 96, 97, 122, 123, 255];

impl Comparison {
    pub fn all_small_trees_as_xml(&mut self) {
        for nodes in brute::LEAST_NODES..=6 {
            self.every_numbered_tree(nodes, &[0, b'A', b'a', b'b']);
        }
        self.every_numbered_tree(7, &[0, b'Y', b'z']);
        self.every_numbered_tree(8, b"m");
        self.every_label_written();
        self.labels_at_limits_written();
        self.all_small_node_files();
        self.all_small_numbers_and_parents();
        self.node_files_one_byte_away();
        self.all_that_can_be_wrong();
    }

    /// Every numbering that question 11 lets pass. "Two trees give the same text only if they are the same ordered labelled tree", and the same
    /// tree has one text: as many texts as Catalan's number says, times the labellings.
    fn every_numbered_tree(&mut self, nodes: usize, labels: &[u8]) {
        const SORT: &str = "every tree of up to 8 nodes in every numbering";
        let mut trees: BTreeMap<Vec<u8>, Element> = BTreeMap::new();
        for shape in brute::shapes(nodes) {
            for labelling in brute::words(labels, nodes - 1) {
                let records = records_of(&shape, &labelling);
                let FillVerdict::Written(text) = self.tree_as_xml(SORT, &records) else {
                    disagree(SORT, &format!("refused\nrecords {}", hex(&records)));
                };
                let drawn = Element::drawn(&records);
                if trees.get(&text).is_some_and(|other| *other != drawn) {
                    disagree(SORT, &format!("two trees have one text\n{}", shown(&text)));
                }
                trees.insert(text, drawn);
            }
        }
        let expected = CATALAN[nodes - 2] * labels.len().pow(nodes as u32 - 1);
        if trees.len() != expected {
            disagree(SORT, &format!("{} texts of {nodes} nodes, by hand {expected}", trees.len()));
        }
    }

    /// Every label there is on every element of every tree of up to 5 nodes, the others having letters or none.
    fn every_label_written(&mut self) {
        for nodes in brute::LEAST_NODES..=5 {
            for shape in brute::shapes(nodes) {
                for (at, label) in (0..nodes - 1).flat_map(|at| (0..=255).map(move |label| (at, label))) {
                    let mut labelling = b"a\0Zq"[..nodes - 1].to_vec();
                    labelling[at] = label;
                    self.tree_as_xml("every label on every element of up to 5 nodes", &records_of(&shape, &labelling));
                }
            }
        }
    }

    /// Several at once, so that the first one that is no name does not hang on its place.
    fn labels_at_limits_written(&mut self) {
        for nodes in brute::LEAST_NODES..=4 {
            for shape in brute::shapes(nodes) {
                for labelling in brute::words(&LABELS_AT_LIMITS, nodes - 1) {
                    self.tree_as_xml("labels at the limits on up to 4 nodes", &records_of(&shape, &labelling));
                }
            }
        }
    }

    /// Up to 3 records of small bytes in any order, also with bytes of a record more, with buffers that pass and that do not.
    fn all_small_node_files(&mut self) {
        const SORT: &str = "every file of up to 3 records of small bytes";
        let few = all_records([&[1, 2], &[0, 1, 2], &[0, 1, 2], &[0, b'a']]);
        let more = all_records([&[0, 1, 2], &[0, 1, 2], &[0, 1, 2], &[0, 1, b'a']]);
        let files = |records: &[[u8; 4]], length| {
            (0..length).fold(vec![Vec::new()], |files: Vec<Vec<u8>>, _| {
                files.iter().flat_map(|file| records.iter().map(move |record| [&file[..], record].concat())).collect()
            })
        };
        for file in [files(&more, 0), files(&more, 1), files(&more, 2)].concat() {
            for (tail, buffer) in [(&[][..], 512), (&[], 511), (&[1], 512), (&[2, 0, 0], 511)] {
                self.write_xml(SORT, &[&file[..], tail].concat(), buffer);
            }
        }
        for file in files(&few, 3) {
            self.write_xml(SORT, &file, LEAST_TEXT_BUFFER);
        }
    }

    /// Question 11: every parent that up to 5 nodes can have, and every own number of up to 4.
    fn all_small_numbers_and_parents(&mut self) {
        const SORT: &str = "every parent of up to 5 nodes, every own number of up to 4";
        for nodes in 1..=5 {
            for parents in brute::words(&[0, 1, 2, 3, 4, 5], nodes) {
                let numbers: Vec<u8> = (0..nodes as u8).collect();
                for label in [0, b'a'] {
                    self.write_xml(SORT, &node_file(&numbers, &parents, label), LEAST_TEXT_BUFFER);
                }
            }
        }
        for nodes in 1..=4 {
            for numbers in brute::words(&[0, 1, 2, 3, 4], nodes) {
                for parents in [[0, 0, 1, 1], [0, 0, 1, 2]] {
                    self.write_xml(SORT, &node_file(&numbers, &parents[..nodes], 0), LEAST_TEXT_BUFFER);
                }
            }
        }
    }

    /// Right files with every byte in place of each of theirs, where they are long with those that matter; cut at every length, with a record
    /// lacking or doubled, and with a place behind them.
    fn node_files_one_byte_away(&mut self) {
        const SORT: &str = "right node records with a byte changed, more or less";
        let small =
            [records_of(&[Node(0), Node(1), Node(1)], b"a\0B"), records_of(&[Node(0), Node(1), Node(2)], b"\0Zz")];
        let chain: Vec<Node> = (0..63).map(Node).collect();
        let star: Vec<Node> = (0..63).map(|before| Node(before.min(1))).collect();
        let long = [chain, star].map(|shape| records_of(&shape, &[b'a'; 63]));
        let every_byte: Vec<u8> = (0..=255).collect();
        let some_bytes = [0, 1, 2, 3, 61, 62, 63, 64, 65, 95, 255];
        let files =
            small.iter().map(|file| (file, &every_byte[..])).chain(long.iter().map(|file| (file, &some_bytes[..])));
        for (file, bytes) in files {
            for at in 0..file.len() {
                let mut changed = file.clone();
                for &byte in bytes {
                    changed[at] = byte;
                    self.write_xml(SORT, &changed, LEAST_TEXT_BUFFER);
                }
                self.write_xml(SORT, &file[..at], LEAST_TEXT_BUFFER);
            }
            for at in (0..file.len()).step_by(4) {
                let (front, back) = file.split_at(at);
                self.write_xml(SORT, &[front, &back[4..]].concat(), LEAST_TEXT_BUFFER);
                self.write_xml(SORT, &[front, &back[..4], back].concat(), LEAST_TEXT_BUFFER);
                self.write_xml(SORT, &[front, &[2, 0, 1, 0], back].concat(), LEAST_TEXT_BUFFER);
            }
            self.write_xml(SORT, &[&file[..], &[2, 0, 1, 0]].concat(), LEAST_TEXT_BUFFER);
        }
    }

    /// Every choice of the six things that can be wrong, each in its ways: the number is that of the first one in the order of the request.
    fn all_that_can_be_wrong(&mut self) {
        const SORT: &str = "every choice of what can be wrong with node records";
        const ORDER: [u8; 6] = [8, 9, 10, 11, 17, 15];
        for (chosen, way) in (0..1 << ORDER.len()).flat_map(|chosen| (0..3).map(move |way| (chosen, way))) {
            let is_wrong =
                |question| ORDER.iter().zip(0..).any(|(&asked, at)| asked == question && chosen >> at & 1 == 1);
            let nodes = if is_wrong(10) { [1, 65, 200][way] } else { [2, 3, 64][way] };
            let mut file: Vec<u8> = (0..nodes as u8).flat_map(|node| [1, node, node.saturating_sub(1), 0]).collect();
            if is_wrong(15) {
                *file.last_mut().expect("a node") = [95, 64, 255][way];
            }
            if is_wrong(11) {
                file[[2, 1, 3][way]] = 1;
            }
            if is_wrong(9) {
                file.extend([[2, 0, 0, 0], [0, 0, 0, 0], [255, 1, 0, 97]][way]);
            }
            if is_wrong(8) {
                file.extend(&[2, 1, 1][..way + 1]);
            }
            let buffer = if is_wrong(17) { [511, 0, 438][way] } else { [512, 513, 600][way] };
            let refused = match self.write_xml(SORT, &file, buffer) {
                FillVerdict::Refused(Refusal(question)) => Some(question),
                FillVerdict::Written(_) => None,
            };
            let expected = ORDER.into_iter().find(|&question| is_wrong(question));
            if refused != expected {
                disagree(SORT, &format!("{refused:?}, by hand {expected:?}\nbuffer {buffer}\nrecords {}", hex(&file)));
            }
        }
    }
}

/// The node records of a shape whose elements have these labels.
pub fn records_of(shape: &[Node], labelling: &[u8]) -> Vec<u8> {
    answer::write_nodes(&brute::tree_of_shape(shape, [&[0], labelling].concat()))
}

/// Node records with these own numbers and parents, and this label on node 0.
fn node_file(numbers: &[u8], parents: &[u8], label: u8) -> Vec<u8> {
    let mut file: Vec<u8> = numbers.iter().zip(parents).flat_map(|(&own, &parent)| [1, own, parent, b'a']).collect();
    file[3] = label;
    file
}

/// Every record with bytes of these in its four places.
fn all_records(bytes: [&[u8]; 4]) -> Vec<[u8; 4]> {
    let mut records = Vec::new();
    for (&kind, &own) in bytes[0].iter().flat_map(|kind| bytes[1].iter().map(move |own| (kind, own))) {
        for (&parent, &label) in bytes[2].iter().flat_map(|parent| bytes[3].iter().map(move |label| (parent, label))) {
            records.push([kind, own, parent, label]);
        }
    }
    records
}
