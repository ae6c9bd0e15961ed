//! A question as the neighbouring desk gets it (document 02, request (ii)): its records in another order, or its variables renumbered. Both
//! are done on the bytes of a file of whole records.

use crate::Random;

/// The record at each place of the new file is the one at the position that `order` has there.
pub fn in_order(file: &[u8], order: &[usize]) -> Vec<u8> {
    let records: Vec<&[u8]> = file.chunks(4).collect();
    order.iter().flat_map(|&position| records[position]).copied().collect()
}

/// Each variable gets the number that `numbers` has for it. Kinds 1 to 5 and 9 name x and y, kinds 6 to 8 name x alone.
pub fn renumbered(file: &[u8], numbers: &[usize]) -> Vec<u8> {
    let number = |variable: u8| numbers[variable as usize] as u8;
    let record_of = |record: &[u8]| {
        let (kind, x, y, label) = (record[0], record[1], record[2], record[3]);
        let names_y = !(6..=8).contains(&kind);
        [kind, number(x), if names_y { number(y) } else { y }, label]
    };
    file.chunks(4).flat_map(record_of).collect()
}

/// Every list that has each number below `length` once.
pub fn permutations(length: usize) -> Vec<Vec<usize>> {
    let mut permutations = vec![Vec::new()];
    for last in 0..length {
        let with_last = |shorter: &Vec<usize>| {
            (0..=last).map(|at| [&shorter[..at], &[last], &shorter[at..]].concat()).collect::<Vec<_>>()
        };
        permutations = permutations.iter().flat_map(with_last).collect();
    }
    permutations
}

pub fn random_permutation(random: &mut Random, length: usize) -> Vec<usize> {
    let mut permutation: Vec<usize> = (0..length).collect();
    random.shuffle(&mut permutation);
    permutation
}

pub fn random_order(random: &mut Random, file: &[u8]) -> Vec<u8> {
    let order = random_permutation(random, file.len() / 4);
    in_order(file, &order)
}
