//! Seeded trees to be written as XML, the same tree in another numbering, and damage to node records and to texts.

use crate::{damaged_bytes, random_tree, Random};
use second::tree::{Node, Tree, DOCUMENT_NODE};

/// A tree whose labels are names: letters of a few, in either case, and blanks.
pub fn named_tree(random: &mut Random, nodes: usize) -> Tree {
    let letters = random.pick(&[&b"a"[..], b"ab", b"aA", b"aAzZ", b"\0", b"a\0", b"aAbB\0", b"abcdefgXYZ\0\0"]);
    let mut tree = random_tree(random, nodes);
    for label in &mut tree.labels[1..] {
        *label = random.pick(letters);
    }
    tree
}

/// The same ordered tree with its nodes numbered by chance: parents before their children, siblings in their order.
pub fn numbered_otherwise(random: &mut Random, tree: &Tree) -> Tree {
    let children = |parent: Node| -> Vec<Node> {
        (0..tree.parents.len()).map(Node).filter(|&node| tree.parent(node) == Some(parent)).collect()
    };
    let mut other = Tree { parents: vec![None], labels: vec![0] };
    // Of each node that has its number, the children that have none yet.
    let mut waiting = vec![(DOCUMENT_NODE, children(DOCUMENT_NODE))];
    while !waiting.is_empty() {
        let at = random.below(waiting.len());
        if waiting[at].1.is_empty() {
            waiting.swap_remove(at);
            continue;
        }
        let (parent, next) = (waiting[at].0, waiting[at].1.remove(0));
        waiting.push((Node(other.parents.len()), children(next)));
        other.parents.push(Some(parent));
        other.labels.push(tree.label(next));
    }
    other
}

/// Damage for each of questions 8 to 11 and 15, one or two at a time, so that their order shows. There is at least one record.
pub fn damaged_nodes(random: &mut Random, records: &[u8]) -> Vec<u8> {
    let mut bytes = records.to_vec();
    for _ in 0..1 + random.below(2) {
        let record = 4 * random.below(bytes.len() / 4);
        match random.below(9) {
            0 => bytes.extend(&[1, 64, 63][..1 + random.below(3)]),
            1 => bytes[record] = random.pick(&[0, 2, 2, 3, 129, 255]),
            2 => bytes.extend([2, random.byte() % 16, random.byte() % 64, 0]),
            3 => bytes.truncate(4 * random.pick(&[1, 1, 2, bytes.len() / 4])),
            4 => bytes = bytes.iter().copied().cycle().take(4 * random.pick(&[64, 65, 66, 128, 258, 1_000])).collect(),
            5 => bytes[record + 1] = random.pick(&[0, 1, 63, 64, 255]),
            6 => bytes[record + 2] = random.pick(&[0, 1, 2, 62, 63, 64, 255]),
            7 => bytes[record + 3] = random.pick(&[1, 64, 91, 94, 95, 95, 96, 123, 193, 255]),
            _ => {
                let at = random.below(bytes.len());
                bytes[at] = random.byte();
            }
        }
    }
    bytes
}

/// A text with bytes wrong, or with tags and parts of them in the wrong place.
pub fn damaged_xml(random: &mut Random, text: &[u8]) -> Vec<u8> {
    const WORDS: [&[u8]; 20] = [
        b"<", b">", b"/", b"</", b"/>", b"<a>", b"</a>", b"<a/>", b"<_>", b"</_>", b"<_/>", b"<A/>", b"a", b"A", b"_",
        b" ", b"\n", b"\0", b"<a></a>", b"<!---->",
    ];
    damaged_bytes(random, text, &WORDS)
}
