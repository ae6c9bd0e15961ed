// Files to mark: cases of 256 records against 64 nodes, all met, so that every record is looked at; and pairs of files drawn at random,
// on which markers must agree.
use crate::plain;

// A small generator of numbers, so that every run has the same cases.
struct Rng(u64);

impl Rng {
    fn below(&mut self, n: u64) -> u64 {
        self.0 ^= self.0 << 13;
        self.0 ^= self.0 >> 7;
        self.0 ^= self.0 << 17;
        (self.0 >> 11) % n
    }
}

pub struct Case {
    pub name: &'static str,
    pub constraints: Vec<u8>,
    pub answer: Vec<u8>,
}

fn answer(parents: &[u8], labels: &[u8], places: &[u8]) -> Vec<u8> {
    let mut bytes = Vec::new();
    for v in 0..parents.len() {
        bytes.extend([1, v as u8, parents[v], labels[v]]);
    }
    for x in 0..places.len() {
        bytes.extend([2, x as u8, places[x], 0]);
    }
    bytes
}

// 256 records that are met: at each position `draw` draws until one is.
fn met(answer: &[u8], draw: &mut dyn FnMut(usize) -> [u8; 4]) -> Vec<u8> {
    // the last record names variable 15, so that n is 16 in each trial
    let name_all = [4, 15, 15, 0];
    let mut bytes = Vec::new();
    while bytes.len() < 1020 {
        let record = draw(bytes.len() / 4);
        let mut trial = record.to_vec();
        trial.extend(name_all);
        if plain::mark(&trial, answer) == 0 {
            bytes.extend(record);
        }
    }
    bytes.extend(name_all);
    bytes
}

// The records of a kind with letters for their labels, each in either case.
fn lettered(rng: &mut Rng, file: &[u8], kind: u8) -> Vec<u8> {
    let mut file = file.to_vec();
    for r in file.chunks_exact_mut(4).filter(|r| r[0] == kind && r[3] != 0) {
        r[3] += [b'a', b'A'][rng.below(2) as usize] - 1;
    }
    file
}

// The last other child of a node's parent, or the node itself.
fn sibling(parents: &[u8], v: u8) -> u8 {
    let others = (1..64).filter(|&w| w != v && v != 0 && parents[w as usize] == parents[v as usize]);
    others.last().unwrap_or(v)
}

pub fn cases() -> Vec<Case> {
    let mut rng = Rng(88172645463325252);
    // below the document node, which has one child and no label
    let chain: Vec<u8> = (0..64).map(|v: u8| v.saturating_sub(1)).collect();
    let star: Vec<u8> = (0..64).map(|v| u8::from(v > 1)).collect();
    let random: Vec<u8> = (0..64u64).map(|v| if v < 2 { 0 } else { 1 + rng.below(v - 1) as u8 }).collect();
    let labels: Vec<u8> = (0..64).map(|v| if v == 0 { 0 } else { 1 + rng.below(4) as u8 }).collect();
    // each kind is met by some variables: some pairs are parent and child, some share a node, and some are siblings
    let mut spread: Vec<u8> = Vec::new();
    for x in 0..16usize {
        let v = match x % 4 {
            0 => rng.below(64) as u8,
            1 => random[spread[x - 1] as usize],
            2 => spread[x / 2],
            _ => sibling(&random, spread[x - 3]),
        };
        spread.push(v);
    }
    spread[0] = 0;
    let mixed_answer = answer(&random, &labels, &spread);
    let kinds: Vec<u8> = (0..256).map(|_| 1 + rng.below(9) as u8).collect();
    let mixed = met(&mixed_answer, &mut |position| {
        let (x, y) = (rng.below(16) as u8, rng.below(16) as u8);
        match kinds[position] {
            kind @ (6 | 7) => [kind, x, 0, 0],
            8 => [8, x, 0, labels[spread[x as usize] as usize]],
            kind => [kind, x, y, 0],
        }
    });
    let leaves: Vec<u8> = (0..16).map(|_| 2 + rng.below(62) as u8).collect();
    let star_answer = answer(&star, &labels, &leaves);
    let leaf = met(&star_answer, &mut |_| [7, rng.below(16) as u8, 0, 0]);
    let depths: Vec<u8> = (0..16).map(|_| rng.below(64) as u8).collect();
    let chain_answer = answer(&chain, &labels, &depths);
    let below = met(&chain_answer, &mut |_| [2, rng.below(16) as u8, rng.below(16) as u8, 0]);
    // all below the bottom: the longest ways up
    let ends: Vec<u8> = (0..16).map(|x| if x < 8 { 0 } else { 63 }).collect();
    let ends_answer = answer(&chain, &labels, &ends);
    let longest = met(&ends_answer, &mut |_| [2, rng.below(8) as u8, 8 + rng.below(8) as u8, 0]);
    let before = met(&star_answer, &mut |_| [9, rng.below(16) as u8, rng.below(16) as u8, 0]);
    let letters = Case {
        name: "mixed kinds, letters in both cases",
        constraints: lettered(&mut rng, &mixed, 8),
        answer: lettered(&mut rng, &mixed_answer, 1),
    };
    vec![
        Case { name: "mixed kinds", constraints: mixed, answer: mixed_answer },
        letters,
        Case { name: "leaf on a star", constraints: leaf, answer: star_answer.clone() },
        Case { name: "before on a star", constraints: before, answer: star_answer },
        Case { name: "below on a chain", constraints: below, answer: chain_answer },
        Case { name: "below, top to bottom", constraints: longest, answer: ends_answer },
    ]
}

// Blank, and labels of which some are equal and some are not: capitals, small letters, and two others 32 apart.
const NAMES: [u8; 8] = [0, 1, b'A', b'a', b'Z', b'z', b'[', b'{'];

// Markers agree on files drawn at random: small bytes, whole records and files that nearly pass, so that every answer comes.
pub fn agree(markers: [fn(&[u8], &[u8]) -> u64; 3], rounds: usize) -> usize {
    let mut rng = Rng(7046029254386353131);
    let mut seen = std::collections::BTreeSet::new();
    for _ in 0..rounds {
        let mut constraints = Vec::new();
        let mut n = 0;
        for _ in 0..rng.below(5) {
            let (kind, x, y) = (1 + rng.below(9) as u8, rng.below(4) as u8, rng.below(4) as u8);
            constraints.extend(match kind {
                6 | 7 => [kind, x, 0, 0],
                8 => [8, x, 0, NAMES[1 + rng.below(7) as usize]],
                _ => [kind, x, y, 0],
            });
            n = n.max(x + 1).max(if matches!(kind, 6..=8) { 0 } else { y + 1 });
        }
        let most = if rng.below(50) == 0 { 70 } else { 6 };
        let nodes = if rng.below(20) == 0 { 1 } else { 2 + rng.below(most) };
        // one sheet in ten may have a second child of the document node, one in ten a label on it
        let least = u64::from(rng.below(10) > 0);
        let parents: Vec<u8> =
            (0..nodes).map(|v| if v < 2 { 0 } else { (least + rng.below(v - least)) as u8 }).collect();
        let mut labels: Vec<u8> = (0..nodes).map(|_| NAMES[rng.below(8) as usize]).collect();
        if rng.below(10) > 0 {
            labels[0] = 0;
        }
        let places: Vec<u8> = (0..n).map(|_| rng.below(nodes) as u8).collect();
        let mut sheet = answer(&parents, &labels, &places);
        // half of them with a byte changed, put in or taken out
        for file in [&mut constraints, &mut sheet] {
            if rng.below(4) == 0 && !file.is_empty() {
                let at = rng.below(file.len() as u64) as usize;
                match rng.below(8) {
                    0 => file.insert(at, 1),
                    1 => drop(file.remove(at)),
                    2 => file.extend(vec![1; 1024]),
                    _ => file[at] = rng.below(20) as u8,
                }
            }
        }
        let answers = markers.map(|mark| mark(&constraints, &sheet));
        assert!(answers == [answers[0]; 3], "{constraints:?} {sheet:?} {answers:x?}");
        // verdict with the kind, or with the question
        seen.insert(if answers[0] >> 48 == 3 { answers[0] } else { answers[0] >> 32 });
    }
    seen.len()
}
