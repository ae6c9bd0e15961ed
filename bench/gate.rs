// Questions 1 to 6 in plain Rust: the number of variables, or the number of the question that refuses.
// Every record is looked up in two small tables and the findings are gathered without a branch; only a file that has something wrong
// is read again, record by record, to tell which question it is.

// For each kind the bits of a record (kind, x, y, label from the lowest byte) that may not be set.
const PAIR: u32 = 0xff_f0_f0_f0;
const SINGLE: u32 = 0xff_ff_f0_f0;
const LABEL: u32 = 0x00_ff_f0_f0;
const UNKNOWN: u32 = 0xff_ff_ff_ff;
const FORBIDDEN: [u32; 16] = [
    UNKNOWN, PAIR, PAIR, PAIR, PAIR, PAIR, SINGLE, SINGLE, LABEL, PAIR, UNKNOWN, UNKNOWN, UNKNOWN, UNKNOWN, UNKNOWN,
    UNKNOWN,
];
// The least label: 1 for kind 8; kind 0 has none that will do.
const LEAST_LABEL: [u16; 16] = [256, 0, 0, 0, 0, 0, 0, 0, 1, 0, 0, 0, 0, 0, 0, 0];

#[inline]
pub fn variables(file: &[u8]) -> Result<usize, u8> {
    if file.len() > 1024 {
        return Err(1);
    }
    if file.len() % 4 != 0 {
        return Err(2);
    }
    let mut wrong = 0u32;
    let mut named = 0u32;
    for r in file.chunks_exact(4) {
        let record = u32::from_le_bytes([r[0], r[1], r[2], r[3]]);
        let kind = (record & 15) as usize;
        wrong |= record & FORBIDDEN[kind];
        wrong |= (((record >> 24) as u16) < LEAST_LABEL[kind]) as u32;
        named |= 1u32 << (r[1] & 31) | 1u32 << (r[2] & 31);
    }
    if wrong != 0 {
        return Err(question(file));
    }
    Ok(32 - named.leading_zeros() as usize)
}

// The first question that a record of the file is refused by.
#[cold]
fn question(file: &[u8]) -> u8 {
    for r in file.chunks_exact(4) {
        let [kind, x, y, label] = [r[0], r[1], r[2], r[3]];
        if kind < 1 || kind > 9 {
            return 3;
        }
        let pair = kind < 6 || kind == 9;
        if x > 15 || pair && y > 15 {
            return 4;
        }
        if kind == 8 && label == 0 {
            return 5;
        }
        if !pair && y != 0 || kind != 8 && label != 0 {
            return 6;
        }
    }
    unreachable!()
}
