// Trees as XML in plain Rust, as it is first written: the questions one by one, children linked and walked, a reader that calls itself for what is
// inside an element. Records are gathered beside the lent buffer, so that a refusal changes none of its bytes.

use crate::cudreth::{NODE, NODES_BYTES, XML_BYTES};
const MOST: usize = 64;

// The number of nodes, or the number of the question that refuses.
fn questions(nodes: &[u8], lent: usize) -> Result<usize, u8> {
    if nodes.len() % 4 != 0 {
        return Err(8);
    }
    if nodes.chunks_exact(4).any(|record| record[0] != NODE) {
        return Err(9);
    }
    let count = nodes.len() / 4;
    if !(2..=MOST).contains(&count) {
        return Err(10);
    }
    for (v, record) in nodes.chunks_exact(4).enumerate() {
        let (own, parent, label) = (record[1] as usize, record[2] as usize, record[3]);
        let fine = match v {
            0 => parent == 0 && label == 0,
            1 => parent == 0,
            _ => 0 < parent && parent < v,
        };
        if own != v || !fine {
            return Err(11);
        }
    }
    if lent < XML_BYTES {
        return Err(17);
    }
    if nodes.chunks_exact(4).any(|record| record[3] != 0 && !record[3].is_ascii_alphabetic()) {
        return Err(15);
    }
    Ok(count)
}

// The bytes written, or the number of the question that refuses.
pub fn write(nodes: &[u8], text: &mut [u8]) -> Result<usize, u8> {
    let count = questions(nodes, text.len())?;
    let (mut first, mut next) = ([0u8; MOST], [0u8; MOST]);
    for v in (1..count).rev() {
        let parent = nodes[v * 4 + 2] as usize;
        next[v] = first[parent];
        first[parent] = v as u8;
    }
    Ok(put(nodes, &first, &next, 1, text, 0))
}

// The element v and all that is inside it, from a place on; the place behind it.
fn put(nodes: &[u8], first: &[u8; MOST], next: &[u8; MOST], v: usize, text: &mut [u8], mut at: usize) -> usize {
    let label = nodes[v * 4 + 3];
    let name = if label == 0 { b'_' } else { label };
    if first[v] == 0 {
        text[at..at + 4].copy_from_slice(&[b'<', name, b'/', b'>']);
        return at + 4;
    }
    text[at..at + 3].copy_from_slice(&[b'<', name, b'>']);
    at += 3;
    let mut child = first[v] as usize;
    while child != 0 {
        at = put(nodes, first, next, child, text, at);
        child = next[child] as usize;
    }
    text[at..at + 4].copy_from_slice(&[b'<', b'/', name, b'>']);
    at + 4
}

// The bytes written, or the number of the question that refuses.
pub fn read(text: &[u8], nodes: &mut [u8]) -> Result<usize, u8> {
    if nodes.len() < NODES_BYTES {
        return Err(17);
    }
    let mut records = [[0u8; 4]; MOST];
    records[0] = [NODE, 0, 0, 0];
    let mut reader = Reader { text, at: 0, records, count: 1 };
    if reader.element(0).is_none() || reader.at != text.len() {
        return Err(16);
    }
    let bytes = reader.count * 4;
    nodes[..bytes].copy_from_slice(&reader.records.as_flattened()[..bytes]);
    Ok(bytes)
}

struct Reader<'a> {
    text: &'a [u8],
    at: usize,
    records: [[u8; 4]; MOST],
    count: usize,
}

impl Reader<'_> {
    // One element and all that is inside it.
    fn element(&mut self, parent: u8) -> Option<()> {
        let rest = &self.text[self.at..];
        let (&[b'<', name], rest) = rest.split_first_chunk()? else { return None };
        if name != b'_' && !name.is_ascii_alphabetic() || self.count == MOST {
            return None;
        }
        let own = self.count as u8;
        self.records[self.count] = [NODE, own, parent, if name == b'_' { 0 } else { name }];
        self.count += 1;
        if rest.starts_with(b"/>") {
            self.at += 4;
            return Some(());
        }
        if rest.first() != Some(&b'>') {
            return None;
        }
        self.at += 3;
        self.element(own)?;
        while !self.text[self.at..].starts_with(b"</") {
            self.element(own)?;
        }
        if !self.text[self.at + 2..].starts_with(&[name, b'>']) {
            return None;
        }
        self.at += 4;
        Some(())
    }
}
