//! Questions 3 to 6 and n in one pass over the records (document 02, request (iv)). `constraint::read`, which collects the records and counts
//! n after them, is not used: each is held to the other.

use crate::Refusal;

pub type Record = [u8; 4];

/// A file's number or n. As much is kept between records, "only the number refused, if any, and n so far": where there is a number, n is no
/// longer asked for.
pub type NumberOrN = Result<usize, Refusal>;

/// Before the first record; an empty file has n 0.
pub const NOTHING_READ: NumberOrN = Ok(0);

/// What is kept after one more record: the number refused stays, and else this record's questions are asked.
pub fn step(kept: NumberOrN, record: Record) -> NumberOrN {
    let n = kept?;
    let [kind, x, y, label] = record;
    let (named, unused) = match kind {
        1..=5 | 9 => (vec![x, y], vec![label]),
        6 | 7 => (vec![x], vec![y, label]),
        8 => (vec![x], vec![y]),
        _ => return Err(Refusal(3)),
    };
    if named.iter().any(|&variable| variable > 15) {
        return Err(Refusal(4));
    }
    if kind == 8 && label == 0 {
        return Err(Refusal(5));
    }
    if unused.iter().any(|&byte| byte != 0) {
        return Err(Refusal(6));
    }
    // "The highest number named plus one."
    Ok(named.iter().fold(n, |n, &variable| n.max(variable as usize + 1)))
}

/// "From any record on, these and the later records alone give the file's number or n."
pub fn onwards(kept: NumberOrN, later: &[Record]) -> NumberOrN {
    later.iter().fold(kept, |kept, &record| step(kept, record))
}

/// Questions 1 and 2 are asked of the whole file first, by its length.
pub fn number_or_n(file: &[u8]) -> NumberOrN {
    if file.len() > 1024 {
        return Err(Refusal(1));
    }
    if file.len() % 4 != 0 {
        return Err(Refusal(2));
    }
    onwards(NOTHING_READ, &records(file))
}

/// The whole records of a file.
pub fn records(file: &[u8]) -> Vec<Record> {
    file.chunks_exact(4).map(|record| [record[0], record[1], record[2], record[3]]).collect()
}
