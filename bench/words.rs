// Trees as XML in Rust that goes by words, as fast as we could make it. Every tag has four bytes, if `<a>` is taken with the `<` that always comes next, so both ways go by words.
//
// The writer does not walk the tree. A parent's number is smaller than its children's: from the last node to the first each adds its size to
// its parent's, and from the first to the last each takes the next place that its parent has, so that no branch hangs on the shape.
// The reader keeps the elements that are open. Records are gathered beside the lent buffer, so that a refusal changes none of its bytes.

use crate::cudreth::{NODE, NODES_BYTES, XML_BYTES};

const MOST: usize = 64;
// Cuts off nothing of a node's number; it tells the compiler that 64 places are enough.
const NUMBER: usize = MOST - 1;

const OPEN: u32 = u32::from_le_bytes(*b"<\0><");
const CLOSE: u32 = u32::from_le_bytes(*b"</\0>");
const LEAF: u32 = u32::from_le_bytes(*b"<\0/>");

// ---- writing

// The bytes written, or the number of the question that refuses.
pub fn write(nodes: &[u8], text: &mut [u8]) -> Result<usize, u8> {
    let records = questions(nodes, text.len())?;
    Ok(put(records, text))
}

// All that is asked of a record is gathered in one pass without a way out, which the compiler does four records at a time.
fn questions(nodes: &[u8], lent: usize) -> Result<&[[u8; 4]], u8> {
    let (records, rest) = nodes.as_chunks();
    if !rest.is_empty() {
        return Err(8);
    }
    if !(2..=MOST).contains(&records.len()) {
        return Err(if records.iter().all(|record| record[0] == NODE) { 10 } else { 9 });
    }
    let (mut kinds, mut wrong, mut labels) = (0, 0, 0);
    for (v, record) in records.iter().enumerate() {
        let (v, record) = (v as i32, i32::from_le_bytes(*record));
        let (parent, label) = (record >> 16 & 0xff, record >> 24 & 0xff);
        kinds |= record ^ i32::from(NODE);
        wrong |= (record >> 8 ^ v) & 0xff;
        // negative unless the parent is 1 to v - 1, as it is from node 2 on
        wrong |= ((parent - 1) | (v - 1 - parent)) & if v < 2 { 0 } else { i32::MIN };
        // negative unless the label is a letter, in either case
        let letter = (label | 32) - i32::from(b'a');
        labels |= if label == 0 { 0 } else { letter | (25 - letter) };
    }
    if kinds & 0xff != 0 {
        return Err(9);
    }
    if wrong != 0 || records[0] != [NODE, 0, 0, 0] || records[1][2] != 0 {
        return Err(11);
    }
    if lent < XML_BYTES {
        return Err(17);
    }
    if labels < 0 {
        return Err(15);
    }
    Ok(records)
}

// The bytes of each element with all that is in it.
fn sizes(records: &[[u8; 4]]) -> [u32; MOST] {
    let mut sizes = [4; MOST];
    for record in &records[2..] {
        sizes[usize::from(record[2]) & NUMBER] = 7;
    }
    for v in (2..records.len()).rev() {
        sizes[usize::from(records[v][2]) & NUMBER] += sizes[v & NUMBER];
    }
    sizes
}

fn put(records: &[[u8; 4]], text: &mut [u8]) -> usize {
    let sizes = sizes(records);
    // of each node that has been reached: where its next child goes; of the document node behind the outermost element
    let mut places = [0u32; MOST];
    for v in 1..records.len() {
        let [_, _, parent, label] = records[v];
        let (parent, size) = (usize::from(parent) & NUMBER, sizes[v & NUMBER]);
        let at = places[parent];
        places[parent] = at + size;
        places[v & NUMBER] = at + 3;
        let name = u32::from(if label == 0 { b'_' } else { label });
        let leaf = LEAF | name << 8;
        let [first, last] = if size == 4 { [leaf; 2] } else { [OPEN | name << 8, CLOSE | name << 16] };
        let (at, end) = (at as usize, (at + size) as usize);
        text[at..at + 4].copy_from_slice(&first.to_le_bytes());
        text[end - 4..end].copy_from_slice(&last.to_le_bytes());
    }
    places[0] as usize
}

// ---- reading

// No label of an element that can be read.
const NO: u8 = 1;

// The label of an element with that name.
const LABELS: [u8; 256] = {
    let mut labels = [NO; 256];
    let mut letter = 0;
    while letter < 26 {
        labels[b'a' as usize + letter] = b'a' + letter as u8;
        labels[b'A' as usize + letter] = b'A' + letter as u8;
        letter += 1;
    }
    labels[b'_' as usize] = 0;
    labels
};

// The bytes written, or the number of the question that refuses.
pub fn read(text: &[u8], nodes: &mut [u8]) -> Result<usize, u8> {
    if nodes.len() < NODES_BYTES {
        return Err(17);
    }
    let mut records = [[0; 4]; MOST];
    let count = elements(text, &mut records).ok_or(16)?;
    let bytes = records[..count].as_flattened();
    nodes[..bytes.len()].copy_from_slice(bytes);
    Ok(bytes.len())
}

// The number of nodes, the document node counted.
fn elements(mut rest: &[u8], records: &mut [[u8; 4]; MOST]) -> Option<usize> {
    records[0] = [NODE, 0, 0, 0];
    let mut count = 1;
    // of the elements that are open, by depth: number and end; at depth 0 the document node
    let (mut numbers, mut ends) = ([0; MOST], [0; MOST]);
    let mut depth = 0;
    let mut childless = true;
    loop {
        let word = u32::from_le_bytes(*rest.first_chunk()?);
        if word == ends[depth & NUMBER] && !childless {
            rest = &rest[4..];
            depth -= 1;
            if depth == 0 {
                break;
            }
            continue;
        }
        let name = word >> 8 & 0xff;
        let label = LABELS[name as usize];
        if label == NO || count == MOST {
            return None;
        }
        records[count & NUMBER] = [NODE, count as u8, numbers[depth & NUMBER], label];
        count += 1;
        if word ^ name << 8 == LEAF {
            rest = &rest[4..];
            childless = false;
            if depth == 0 {
                break;
            }
        } else if word ^ name << 8 == OPEN {
            rest = &rest[3..];
            depth += 1;
            numbers[depth & NUMBER] = count as u8 - 1;
            ends[depth & NUMBER] = CLOSE | name << 16;
            childless = true;
        } else {
            return None;
        }
    }
    rest.is_empty().then_some(count)
}
