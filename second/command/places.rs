//! Where a refusal of records stands: the table of "The command" in docs/FORMAT.md, of questions 1 to 6, 8 to 12 and 15.

use second::one_pass::{step, NOTHING_READ};

/// A place among records. Words are counted as in the line of a record: 0 is its first, 1 to 3 are its numbers.
#[derive(Clone, Copy, PartialEq, Eq, Debug)]
pub enum At {
    Record(usize),
    Word(usize, usize),
    /// Behind the last record.
    End,
}

/// The place of questions 1 to 6.
pub fn in_question(number: u8, file: &[u8]) -> At {
    match number {
        1 => At::Record(256),
        2 => At::Record(file.len() / 4),
        _ => {
            let refused = |record: &[u8]| step(NOTHING_READ, [record[0], record[1], record[2], record[3]]).is_err();
            let at = file.chunks(4).position(refused).expect("a record is refused");
            match number {
                // "The variable above 15, x first, or the label."
                4 => At::Word(at, if file[4 * at + 1] > 15 { 1 } else { 2 }),
                5 => At::Word(at, 2),
                _ => At::Record(at),
            }
        }
    }
}

/// The place of questions 8 to 12, asked with so many variables, and of 15.
pub fn in_answer(number: u8, file: &[u8], variables: usize) -> At {
    let records: Vec<&[u8]> = file.chunks(4).collect();
    match number {
        8 => At::Record(file.len() / 4),
        9 => At::Record(no_answer_record(&records)),
        10 => match number_of_nodes(&records) {
            0 | 1 => At::End,
            _ => At::Record(64),
        },
        11 => no_node(&records),
        12 => no_place(&records, variables),
        _ => {
            let named = |label: u8| label == 0 || label.is_ascii_alphabetic();
            At::Word(records.iter().position(|record| !named(record[3])).expect("a label is refused"), 3)
        }
    }
}

fn number_of_nodes(records: &[&[u8]]) -> usize {
    records.iter().take_while(|record| record[0] == 1).count()
}

/// "The first record that is neither node nor place, or the first node behind a place."
fn no_answer_record(records: &[&[u8]]) -> usize {
    let nodes = number_of_nodes(records);
    let later = records[nodes..].iter().position(|record| record[0] != 2);
    nodes + later.expect("a record is refused")
}

/// "Its number if that is not its position, else its parent, or the label if it is node 0 and has a label alone."
fn no_node(records: &[&[u8]]) -> At {
    for (position, record) in records.iter().enumerate() {
        let parent = record[2] as usize;
        let parent_fits = match position {
            0 | 1 => parent == 0,
            _ => (1..position).contains(&parent),
        };
        if record[1] as usize != position {
            return At::Word(position, 1);
        }
        if !parent_fits {
            return At::Word(position, 2);
        }
        if position == 0 && record[3] != 0 {
            return At::Word(position, 3);
        }
    }
    unreachable!("a node is refused")
}

/// "The first place that is refused, or the first too many; its variable if that is not its position or is too many, else its node; behind
/// the last record, where one lacks."
fn no_place(records: &[&[u8]], variables: usize) -> At {
    let nodes = number_of_nodes(records);
    for (position, record) in records[nodes..].iter().enumerate() {
        if record[1] as usize != position || position >= variables {
            return At::Word(nodes + position, 1);
        }
        if record[2] as usize >= nodes || record[3] != 0 {
            return At::Word(nodes + position, 2);
        }
    }
    At::End
}
