// The proved writer and reader of XML beside the plain ones, and beside those that go by words: node records and texts on which all three must agree, and
// some to time.
use std::hint::black_box;

use crate::cudreth::{cudreth_xml_read, cudreth_xml_write, NODE, NODES_BYTES, PLACE, XML_BYTES};
use crate::readers::{span, spoil};
use crate::sets::Rng;
use crate::{bounded, head, rounds, row, words, xml, Times};

type Function = fn(&[u8], &mut [u8]) -> u64;

const WRITTEN: u64 = 0;
const REFUSED: u64 = 3;

fn proved_write(nodes: &[u8], text: &mut [u8]) -> u64 {
    unsafe { cudreth_xml_write(nodes.as_ptr(), nodes.len(), text.as_mut_ptr(), text.len()) }
}

fn proved_read(text: &[u8], nodes: &mut [u8]) -> u64 {
    unsafe { cudreth_xml_read(text.as_ptr(), text.len(), nodes.as_mut_ptr(), nodes.len()) }
}

fn told(end: Result<usize, u8>) -> u64 {
    match end {
        Ok(bytes) => WRITTEN << 48 | (bytes as u64) << 32,
        Err(question) => REFUSED << 48 | u64::from(question),
    }
}

fn plain_write(nodes: &[u8], text: &mut [u8]) -> u64 {
    told(xml::write(nodes, text))
}

fn plain_read(text: &[u8], nodes: &mut [u8]) -> u64 {
    told(xml::read(text, nodes))
}

fn words_write(nodes: &[u8], text: &mut [u8]) -> u64 {
    told(words::write(nodes, text))
}

fn words_read(text: &[u8], nodes: &mut [u8]) -> u64 {
    told(words::read(text, nodes))
}

// Writing or reading: the proved function, the plain one and the one by words, and the shortest buffer that they take.
struct Way {
    functions: [Function; 3],
    buffer: usize,
    times: fn(&[Vec<u8>]) -> Times,
    beside_words: fn(&[Vec<u8>]) -> Times,
}

const WRITING: Way = Way {
    functions: [proved_write, plain_write, words_write],
    buffer: XML_BYTES,
    times: |trees| times(proved_write, plain_write, trees),
    beside_words: |trees| times(proved_write, words_write, trees),
};

const READING: Way = Way {
    functions: [proved_read, plain_read, words_read],
    buffer: NODES_BYTES,
    times: |texts| times(proved_read, plain_read, texts),
    beside_words: |texts| times(proved_read, words_read, texts),
};

impl Way {
    // Result and every byte of the buffer of all functions, which must be equal.
    fn both(&self, input: &[u8], buffer: usize, noise: u8) -> (u64, Vec<u8>) {
        let [proved, others @ ..] = self.functions.map(|function| {
            let mut lent = vec![noise; buffer];
            let end = function(input, &mut lent);
            (end, lent)
        });
        for (name, other) in ["plain", "words"].iter().zip(others) {
            assert!(
                proved == other,
                "they differ on {:?}, buffer {buffer}, noise {noise}:\nproved {:x}, {:?}\n{name} {:x}, {:?}",
                input[..input.len().min(520)].escape_ascii().to_string(),
                proved.0,
                proved.1.escape_ascii().to_string(),
                other.0,
                other.1.escape_ascii().to_string()
            );
        }
        proved
    }

    // What is written, of an input that is not refused.
    fn written(&self, input: &[u8]) -> Vec<u8> {
        let (end, mut lent) = self.both(input, self.buffer, 0);
        assert!(end >> 48 == WRITTEN, "{:?}: {}", input.escape_ascii().to_string(), answer(end));
        lent.truncate((end >> 32) as usize);
        lent
    }

    fn refused(&self, input: &[u8], buffer: usize, question: u64) {
        let (end, _) = self.both(input, buffer, 7);
        assert!(end == REFUSED << 48 | question, "{:?}: {}", input.escape_ascii().to_string(), answer(end));
    }
}

fn answer(end: u64) -> String {
    match end >> 48 {
        WRITTEN => format!("{} written", (end >> 32) as u16),
        _ => format!("refused {}", end as u32),
    }
}

// ---- trees and texts

// The parent of each node is one of the `near` first elements if `wide`, else one of the `near` last; a quarter of the labels are blank.
fn tree(rng: &mut Rng, nodes: usize, near: usize, wide: bool) -> Vec<u8> {
    let mut records = vec![NODE, 0, 0, 0];
    for v in 1..nodes {
        let parent = match v {
            1 => 0,
            _ if wide => 1 + rng.below(near.min(v - 1)),
            _ => v - 1 - rng.below(near.min(v - 1)),
        };
        records.extend([NODE, v as u8, parent as u8, label(rng)]);
    }
    records
}

fn label(rng: &mut Rng) -> u8 {
    match rng.below(4) {
        0 => 0,
        _ => [b'a', b'A'][rng.below(2)] + rng.below(26) as u8,
    }
}

fn chain(elements: usize) -> Vec<u8> {
    tree(&mut Rng(20_261_121), 1 + elements, 1, false)
}

fn star(elements: usize) -> Vec<u8> {
    tree(&mut Rng(20_261_122), 1 + elements, 1, true)
}

// Trees of 2 to `most` nodes between deep and wide, whose shapes no branch can learn by heart.
fn mixed(seed: u64, trees: usize, most: usize) -> Vec<Vec<u8>> {
    let mut rng = Rng(seed);
    let tree = |_| {
        let (nodes, near, wide) = (2 + rng.below(most - 1), [2, 3, 8, 64][rng.below(4)], rng.below(2) == 0);
        tree(&mut rng, nodes, near, wide)
    };
    (0..trees).map(tree).collect()
}

// A text of so many elements, also of more than a tree may have.
fn text(rng: &mut Rng, elements: usize) -> Vec<u8> {
    let mut text = Vec::new();
    let mut open = Vec::new();
    let close = |name: u8| [b'<', b'/', name, b'>'];
    let seldom = 1 + rng.below(8);
    let mut leaf = false;
    for left in (0..elements).rev() {
        while leaf && open.len() > 1 && rng.below(seldom) == 0 {
            text.extend(open.pop().map(close).unwrap());
        }
        let name = [b'a', b'b', b'Z', b'_'][rng.below(4)];
        leaf = left == 0 || !open.is_empty() && rng.below(2) == 0;
        if leaf {
            text.extend([b'<', name, b'/', b'>']);
        } else {
            text.extend([b'<', name, b'>']);
            open.push(name);
        }
    }
    text.extend(open.into_iter().rev().flat_map(close));
    text
}

// ---- damage

fn damage_nodes(rng: &mut Rng, nodes: &mut Vec<u8>) {
    let no_letters = b"_@[`{/ \x01\xe1\xff";
    let (at, other) = (rng.below(nodes.len()), rng.below(nodes.len()));
    let number = nodes.len() / 4;
    match rng.below(9) {
        0 => nodes[at] = [0, 1, 2, 3, 63, 64, 255][rng.below(7)],
        1 => nodes[at] = (at / 4) as u8,
        2 => nodes[at] ^= 1 << rng.below(8),
        3 => nodes.truncate(at),
        4 => nodes.extend([PLACE, 0, 1, 0]),
        5 => (number..number + [1, 60][rng.below(2)]).for_each(|v| nodes.extend([NODE, v as u8, (v / 2) as u8, 0])),
        6 => nodes.swap(at, other),
        _ => nodes.iter_mut().skip(at | 3).take(1).for_each(|label| *label = no_letters[rng.below(10)]),
    }
}

fn damage_text(rng: &mut Rng, text: &mut Vec<u8>) {
    let tags = ["<b/>", "<b>", "</b>", "<_/>", "<b></b>", "<b><c/></b>"];
    let (at, to) = span(rng, text);
    match rng.below(9) {
        7 | 8 => {
            // before a tag, so that it may be the text of another tree
            let at = at + text[at..].iter().position(|&byte| byte == b'<').unwrap_or(0);
            text.splice(at..at, tags[rng.below(tags.len())].bytes()).for_each(drop);
        }
        way => spoil(rng, text, way, b"<>/_aZ{@ \n\0\xff", (at, to)),
    }
}

fn damaged(rng: &mut Rng, mut bytes: Vec<u8>, damage: fn(&mut Rng, &mut Vec<u8>)) -> Vec<u8> {
    for _ in 0..[0, 0, 0, 1, 1, 2, 3][rng.below(7)] {
        if !bytes.is_empty() {
            damage(rng, &mut bytes);
        }
    }
    bytes
}

// ---- equal results

// Node records, their text, and the records that are read from it.
const KNOWN: [(&[u8], &str, &[u8]); 5] = [
    (b"\x01\0\0\0\x01\x01\0a", "<a/>", b"\x01\0\0\0\x01\x01\0a"),
    (b"\x01\0\0\0\x01\x01\0\0", "<_/>", b"\x01\0\0\0\x01\x01\0\0"),
    (b"\x01\0\0\0\x01\x01\0A\x01\x02\x01a", "<A><a/></A>", b"\x01\0\0\0\x01\x01\0A\x01\x02\x01a"),
    (
        b"\x01\0\0\0\x01\x01\0a\x01\x02\x01\0\x01\x03\x01b\x01\x04\x02c",
        "<a><_><c/></_><b/></a>",
        b"\x01\0\0\0\x01\x01\0a\x01\x02\x01\0\x01\x03\x02c\x01\x04\x01b",
    ),
    (
        b"\x01\0\0\0\x01\x01\0z\x01\x02\x01Y\x01\x03\x01x\x01\x04\x02w\x01\x05\x03v\x01\x06\x02u",
        "<z><Y><w/><u/></Y><x><v/></x></z>",
        b"\x01\0\0\0\x01\x01\0z\x01\x02\x01Y\x01\x03\x02w\x01\x04\x02u\x01\x05\x01x\x01\x06\x05v",
    ),
];

const REFUSED_NODES: [(&[u8], usize, u64); 9] = [
    (b"\x01\0\0\0\x01\x01\0", XML_BYTES, 8),
    (b"\x01\0\0\0\x01\x01\0a\x02\0\x01\0", XML_BYTES, 9),
    (b"\x01\0\0a", XML_BYTES, 10),
    (b"\x01\0\0a\x01\x01\0_", 0, 11),
    (b"\x01\0\0\0\x01\x01\x01a", XML_BYTES, 11),
    (b"\x01\0\0\0\x01\x01\0a\x01\x02\0a", XML_BYTES, 11),
    (b"\x01\0\0\0\x01\x01\0_", XML_BYTES - 1, 17),
    (b"\x01\0\0\0\x01\x01\0_", XML_BYTES, 15),
    (b"\x01\0\0\0\x01\x01\0[", XML_BYTES, 15),
];

const REFUSED_TEXTS: [&str; 14] = [
    "",
    "<",
    "<a",
    "<a>",
    "<a/",
    "</a>",
    "<a></a>",
    "<a/>\n",
    " <a/>",
    "<a />",
    "<a/><a/>",
    "<a><b/></A>",
    "<ab/>",
    "<1/>",
];

fn known() {
    for (nodes, text, read) in KNOWN {
        assert!(WRITING.written(nodes) == text.as_bytes() && READING.written(text.as_bytes()) == read, "{text}");
    }
    for (nodes, buffer, question) in REFUSED_NODES {
        WRITING.refused(nodes, buffer, question);
    }
    for text in REFUSED_TEXTS {
        READING.refused(text.as_bytes(), NODES_BYTES, 16);
        READING.refused(text.as_bytes(), NODES_BYTES - 1, 17);
    }
    assert!(WRITING.written(&chain(63)).len() == 438);
    for elements in 1..=63 {
        for nodes in [chain(elements), star(elements)] {
            assert!(READING.written(&WRITING.written(&nodes)) == nodes);
        }
    }
}

// How many of each answer there were.
fn tally(way: &Way, rng: &mut Rng, trials: usize, draw: impl Fn(&mut Rng) -> Vec<u8>) -> String {
    let mut answers = [0; 18];
    for _ in 0..trials {
        let input = draw(rng);
        let buffer = if rng.below(20) == 0 { rng.below(way.buffer) } else { way.buffer + rng.below(3) };
        let (end, _) = way.both(&input, buffer, rng.below(256) as u8);
        answers[if end >> 48 == WRITTEN { 0 } else { end as u32 as usize }] += 1;
    }
    let refused = (1..18).filter(|&i| answers[i] > 0).map(|i| format!(", {} by {i}", answers[i]));
    format!("{} written, refused{}", answers[0], refused.collect::<String>().trim_start_matches(','))
}

// The known ones, and as many random trees and texts as are asked for.
pub fn agree(trials: usize) {
    known();
    let mut rng = Rng(0x1405_7b7e_f767_814f);
    let trees = tally(&WRITING, &mut rng, trials, |rng| {
        let (nodes, near, wide) = (2 + rng.below(63), [1, 2, 3, 8, 64][rng.below(5)], rng.below(2) == 0);
        let nodes = tree(rng, nodes, near, wide);
        damaged(rng, nodes, damage_nodes)
    });
    let texts = tally(&READING, &mut rng, trials, |rng| {
        let elements = 1 + rng.below(66);
        let text = text(rng, elements);
        damaged(rng, text, damage_text)
    });
    for nodes in mixed(20_261_123, trials / 10, 64) {
        let text = WRITING.written(&nodes);
        assert!(WRITING.written(&READING.written(&text)) == text);
    }
    println!("writers of XML: equal results and bytes on {trials} trees ({trees})");
    println!("readers of XML: equal results and bytes on {trials} texts ({texts})");
}

// ---- times

fn all(function: impl Fn(&[u8], &mut [u8]) -> u64, inputs: &[Vec<u8>], lent: &mut [u8]) -> u64 {
    inputs.iter().fold(0, |sum: u64, input| sum.wrapping_add(function(black_box(input), lent)))
}

// Both functions on the inputs, for each of them.
fn times(
    proved: impl Fn(&[u8], &mut [u8]) -> u64,
    plain: impl Fn(&[u8], &mut [u8]) -> u64,
    inputs: &[Vec<u8>],
) -> Times {
    let mut buffers = [[0u8; XML_BYTES]; 2];
    let [a, b] = &mut buffers;
    let times = rounds(31, [&mut || all(&proved, inputs, a), &mut || all(&plain, inputs, b)]);
    Times::of(&times, inputs.len() as f64)
}

fn timed(way: &Way, name: &str, inputs: &[Vec<u8>]) -> (String, Times) {
    let ends: Vec<u64> = inputs.iter().map(|input| way.both(input, way.buffer, 7).0).collect();
    let answer = match ends[0] {
        end if ends.iter().all(|&other| other == end) => format!(", {}", answer(end)),
        _ => String::new(),
    };
    let bytes = inputs.iter().map(Vec::len).sum::<usize>() as f64 / inputs.len() as f64;
    let times = (way.times)(inputs);
    let each = |time: f64| time / bytes;
    (format!("{name}, {bytes:.0} bytes{answer}: {:.2} {:.2} a byte", each(times.proved), each(times.plain)), times)
}

fn rows(way: &Way, inputs: &[(&str, Vec<Vec<u8>>)]) {
    for (name, inputs) in inputs {
        let (name, times) = timed(way, name, inputs);
        bounded(&name, times, 2.0);
    }
}

// The same with one byte changed, counted from the end.
fn changed(inputs: &[Vec<u8>], from_end: usize, byte: u8) -> Vec<Vec<u8>> {
    let change = |input: &Vec<u8>| {
        let mut input = input.clone();
        let at = input.len() - from_end;
        input[at] = byte;
        input
    };
    inputs.iter().map(change).collect()
}

fn texts(trees: &[Vec<u8>]) -> Vec<Vec<u8>> {
    trees.iter().map(|nodes| WRITING.written(nodes)).collect()
}

pub fn time() {
    let trees = mixed(20_261_124, 10_000, 64);
    let shapes = [
        ("one element", vec![chain(1)]),
        ("chain of 63", vec![chain(63)]),
        ("star of 63", vec![star(63)]),
        // as large as the solver's
        ("10,000 trees of 2 to 18 nodes", mixed(20_261_125, 10_000, 18)),
        ("10,000 trees of 2 to 64 nodes", trees.clone()),
    ];
    head("(f) writer of XML, ns a tree");
    rows(&WRITING, &shapes);
    let with_place = |nodes: &Vec<u8>| [&nodes[..], &[PLACE, 0, 1, 0]].concat();
    let refused = [
        ("chain of 63, last label {", changed(&[chain(63)], 1, b'{')),
        ("the trees, last label {", changed(&trees, 1, b'{')),
        ("the trees, last parent 64", changed(&trees, 2, 64)),
        ("the trees and a place", trees.iter().map(with_place).collect()),
    ];
    rows(&WRITING, &refused);
    head("    reader of XML, ns a text");
    rows(&READING, &shapes.map(|(name, trees)| (name, texts(&trees))));
    let texts = texts(&trees);
    let refused = [
        ("chain of 63, last name 0", changed(&[WRITING.written(&chain(63))], 2, b'0')),
        ("star of 63, last name 0", changed(&[WRITING.written(&star(63))], 2, b'0')),
        ("the trees, last name 0", changed(&texts, 2, b'0')),
        ("the trees, cut", texts.iter().map(|text| text[..text.len() - 1].to_vec()).collect()),
        ("<a> again and again", vec!["<a>".repeat(350_000).into_bytes()]),
    ];
    rows(&READING, &refused);
    beside_words();
    growth();
}

// For what it is worth, with no bound: the same beside Rust that goes by words of four bytes.
fn beside_words() {
    let shapes = [
        ("chain of 63", vec![chain(63)]),
        ("star of 63", vec![star(63)]),
        ("10,000 trees of 2 to 64 nodes", mixed(20_261_124, 10_000, 64)),
    ];
    head("    writer of XML beside Rust by words, ns a tree");
    for (name, trees) in &shapes {
        row(name, (WRITING.beside_words)(trees));
    }
    head("    reader of XML beside Rust by words, ns a text");
    for (name, trees) in &shapes {
        row(name, (READING.beside_words)(&texts(trees)));
    }
}

fn growth() {
    for (title, way) in [("    writer", &WRITING), ("    reader", &READING)] {
        head(&format!("{title} of XML, growth, ns"));
        for (name, shape) in [("chain", chain as fn(usize) -> Vec<u8>), ("star", star)] {
            for elements in [4, 8, 16, 32, 63] {
                let nodes = shape(elements);
                let input = if way.buffer == XML_BYTES { nodes } else { WRITING.written(&nodes) };
                let (name, times) = timed(way, &format!("{name} of {elements}"), &[input]);
                row(&name, times);
            }
        }
    }
}
