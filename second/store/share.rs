//! Shares of what is kept, and what questions to the solver are put with.

pub const ALLOWANCE: u32 = 1_000_000;
/// Above this count the naive search takes too long to be run again at every check.
pub const LARGEST_COUNT: u32 = 999;

/// How many to keep of what `fits`; what is kept is printed under `name` and a number.
pub struct Share<V> {
    name: &'static str,
    most: usize,
    fits: Box<dyn Fn(&V) -> bool>,
    kept: Vec<String>,
}

pub fn share<V>(name: &'static str, most: usize, fits: impl Fn(&V) -> bool + 'static) -> Share<V> {
    Share { name, most, fits: Box::new(fits), kept: Vec::new() }
}

/// Keeps the line in the first share that it fits and that is not full.
pub fn keep<V>(shares: &mut [Share<V>], asked: &V, line: String) {
    if shares.iter().any(|share| share.kept.contains(&line)) {
        return;
    }
    if let Some(share) = shares.iter_mut().find(|share| share.kept.len() < share.most && (share.fits)(asked)) {
        share.kept.push(line);
    }
}

pub fn is_full<V>(shares: &[Share<V>]) -> bool {
    shares.iter().all(|share| share.kept.len() == share.most)
}

pub fn print<V>(shares: &[Share<V>]) {
    for share in shares {
        for (number, line) in share.kept.iter().enumerate() {
            println!("{}-{:02} {line}", share.name, number + 1);
        }
    }
}
