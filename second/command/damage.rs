//! Damage: to text records, so that every complaint comes up, and to the bytes of questions and answers, for each of questions 1 to 6 and 8 to
//! 12.

use questions::Random;

/// Words in the wrong place, and bytes that no word has.
const WORDS: [&[u8]; 42] = [
    b"0",
    b"1",
    b"15",
    b"16",
    b"17",
    b"255",
    b"256",
    b"00015",
    b"0000000000000000000000000016",
    b"4294967295",
    b"4294967296",
    b"99999999999999999999999999999999",
    b"-1",
    b"+1",
    b"1.0",
    b"0x1",
    b"a",
    b"Z",
    b"[",
    b"@",
    b"ab",
    b"child",
    b"label",
    b"node",
    b"var",
    b"tree",
    b"root",
    b"Child",
    b"childs",
    b"a-word-of-20-bytes-!",
    b"a-word-of-21-bytes-!!",
    b"\xff\xfe",
    b"\x7f",
    b"\r",
    b"\x0b",
    b"/",
    b"child::a",
    b"<a/>",
    b"\\",
    b"'",
    b"#",
    b"\0",
];

/// A byte changed, dropped or doubled, lines exchanged, dropped or doubled, words exchanged for others, put in or dropped.
pub fn text(random: &mut Random, text: &[u8]) -> Vec<u8> {
    let mut bytes = text.to_vec();
    for _ in 0..random.pick(&[1, 1, 1, 2]) {
        bytes = match random.below(18) {
            0..=3 => with_byte_wrong(random, bytes),
            4..=6 => with_lines_wrong(random, &bytes),
            7 => {
                let line = random.pick(&[&b"tree 0\n"[..], b"tree\n", b"tree 1 2\n", b"tree 4294967296\n"]);
                [line, &bytes].concat()
            }
            8 => bytes.into_iter().filter(|&byte| byte != b'\n').collect(),
            9 => without_records(random),
            10..=12 => with_line_too_long_or_short(random, &bytes),
            13 | 14 => with_line_more(random, &bytes),
            _ => with_word_wrong(random, &bytes),
        };
    }
    bytes
}

fn with_byte_wrong(random: &mut Random, mut bytes: Vec<u8>) -> Vec<u8> {
    if bytes.is_empty() {
        return vec![random.byte()];
    }
    let at = random.below(bytes.len());
    match random.below(4) {
        0 => drop(bytes.remove(at)),
        1 => bytes.insert(at, bytes[at]),
        2 => bytes[at] = random.pick(b"\r\n\t #/:\\'[0159aAzZ-\x01\x7f\xff"),
        _ => bytes[at] = random.byte(),
    }
    bytes
}

fn with_lines_wrong(random: &mut Random, bytes: &[u8]) -> Vec<u8> {
    let mut lines: Vec<&[u8]> = bytes.split_inclusive(|&byte| byte == b'\n').collect();
    if lines.is_empty() {
        return bytes.to_vec();
    }
    let (at, other) = (random.below(lines.len()), random.below(lines.len()));
    match random.below(4) {
        0 => drop(lines.remove(at)),
        1 => lines.insert(other, lines[at]),
        _ => lines.swap(at, other),
    }
    lines.concat()
}

/// Lines that are of the form, with more than one thing wrong that the records are asked.
const LINES: [&[u8]; 10] = [
    b"child 16 16\n",
    b"below 255 16\n",
    b"before 16 17\n",
    b"label 16 0\n",
    b"label 15 0\n",
    b"node 0 1 2\n",
    b"node 7 9 0\n",
    b"node 2 0 0\n",
    b"var 16 255\n",
    b"var 0 64\n",
];

fn with_line_more(random: &mut Random, bytes: &[u8]) -> Vec<u8> {
    let mut lines: Vec<&[u8]> = bytes.split_inclusive(|&byte| byte == b'\n').collect();
    let at = random.below(lines.len() + 1);
    let line = random.pick(&LINES);
    match lines.get_mut(at) {
        Some(other) if random.one_in(2) => *other = line,
        _ => lines.insert(at, line),
    }
    lines.concat()
}

/// A word more or less in one line, in front of its comment.
fn with_line_too_long_or_short(random: &mut Random, bytes: &[u8]) -> Vec<u8> {
    let mut lines: Vec<Vec<u8>> = bytes.split_inclusive(|&byte| byte == b'\n').map(<[u8]>::to_vec).collect();
    if let [_, ..] = lines.as_slice() {
        let at = random.below(lines.len());
        let line = &mut lines[at];
        let end = line.iter().position(|byte| b"#\r\n".contains(byte)).unwrap_or(line.len());
        let behind = line[..end].iter().rposition(|byte| !b" \t".contains(byte)).map_or(0, |last| last + 1);
        let start = line[..behind].iter().rposition(|byte| b" \t".contains(byte)).unwrap_or(0);
        let other = random.pick(&[&b""[..], b"", b" 0", b"\t1", b"  16 256"]);
        drop(line.splice(if other.is_empty() { start..behind } else { behind..behind }, other.iter().copied()));
    }
    lines.concat()
}

/// Only comments and space, or nothing but the line of a tree.
fn without_records(random: &mut Random) -> Vec<u8> {
    random
        .pick(&[
            &b""[..],
            b"\n",
            b"# nothing",
            b"# nothing\n",
            b"\xef\xbb\xbf",
            b"\r\n\n\t",
            b"tree 3\n",
            b"tree 3",
            b" ",
        ])
        .to_vec()
}

/// One word of the text replaced, put in or dropped.
fn with_word_wrong(random: &mut Random, bytes: &[u8]) -> Vec<u8> {
    let is_space = |byte: &u8| matches!(byte, b' ' | b'\t' | b'\n' | b'\r');
    let starts: Vec<usize> =
        (0..bytes.len()).filter(|&at| !is_space(&bytes[at]) && (at == 0 || is_space(&bytes[at - 1]))).collect();
    if starts.is_empty() {
        return bytes.to_vec();
    }
    let start = random.pick(&starts);
    let length = bytes[start..].iter().take_while(|byte| !is_space(byte)).count();
    let (before, word, after) = (&bytes[..start], &bytes[start..start + length], &bytes[start + length..]);
    let other = random.pick(&WORDS);
    match random.below(6) {
        0 => [before, after].concat(),
        1 => [before, other, b" ", word, after].concat(),
        2 => [before, word, b"\t", other, after].concat(),
        3 => [before, word, other, after].concat(),
        _ => [before, other, after].concat(),
    }
}

/// The bytes of a constraint file with one or two things wrong.
pub fn question(random: &mut Random, file: &[u8]) -> Vec<u8> {
    let mut bytes = file.to_vec();
    for _ in 0..1 + random.below(2) {
        if bytes.len() < 4 {
            bytes.extend([random.below(11) as u8, 0, 0, 0]);
        }
        let record = 4 * random.below(bytes.len() / 4);
        match random.below(8) {
            0 => bytes.extend(&[1, 0, 0][..1 + random.below(3)]),
            1 => bytes.truncate(bytes.len() - 1 - random.below(3)),
            2 => bytes = bytes.iter().copied().cycle().take(random.pick(&[1_024, 1_025, 1_028, 2_000])).collect(),
            3 => bytes[record] = random.pick(&[0, 10, 255, 8, 6]),
            4 => bytes[record + 1 + random.below(2)] = random.pick(&[15, 16, 16, 255]),
            5 => drop(bytes.splice(record..record, [8, random.below(16) as u8, 0, 0])),
            6 => bytes[record + 3] = random.pick(&[0, 1, 255]),
            _ => {
                let at = random.below(bytes.len());
                bytes[at] = random.byte();
            }
        }
    }
    bytes
}

/// The bytes of an answer file with one or two things wrong.
pub fn answer(random: &mut Random, file: &[u8]) -> Vec<u8> {
    let mut bytes = file.to_vec();
    for _ in 0..1 + random.below(2) {
        if bytes.len() < 8 {
            bytes.extend([1, 0, 0, 0, 1, 1, 0, 0]);
        }
        let record = 4 * random.below(bytes.len() / 4);
        let nodes = bytes.chunks_exact(4).take_while(|record| record[0] == 1).count();
        match random.below(14) {
            0 => bytes.extend(&[2, 0, 0][..1 + random.below(3)]),
            1 => bytes[record] = random.pick(&[0, 1, 2, 3, 255]),
            2 => bytes.extend([1, 1, 0, 0]),
            3 => bytes.extend([2, (bytes.len() / 4 - nodes) as u8, 0, 0]),
            4 => drop(bytes.drain(4 * random.pick(&[0, 1]).min(nodes)..4 * nodes)),
            5 => drop(bytes.splice(..4 * nodes, chain(random.pick(&[63, 64, 65, 66, 200])))),
            6 => bytes[record + 1] = random.pick(&[0, 1, 2, 63, 255]),
            7 => bytes[record + 2] = random.pick(&[0, 1, 2, 63, 64, 255]),
            8 => bytes[record + 3] = random.pick(&[0, 1, 97, 255]),
            9 => bytes.truncate(record),
            10 => drop(bytes.drain(record..record + 4)),
            11 => bytes[2..4].copy_from_slice(&[random.below(2) as u8, b'a']),
            12 => bytes[record + 1..record + 3].copy_from_slice(&[random.byte() | 1, random.byte() | 64]),
            _ => {
                let at = random.below(bytes.len());
                bytes[at] = random.byte();
            }
        }
    }
    bytes
}

/// Node records, each the parent of the next.
pub fn chain(nodes: usize) -> Vec<u8> {
    (0..nodes)
        .flat_map(|node| [1, node as u8, node.saturating_sub(1) as u8, if node == 0 { 0 } else { b'a' }])
        .collect()
}
