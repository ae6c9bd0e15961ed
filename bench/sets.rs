// Seeded sets of records: free ones, and ones that a tree is known for.

pub struct Rng(pub u64);

impl Rng {
    pub fn below(&mut self, n: usize) -> usize {
        self.0 ^= self.0 << 13;
        self.0 ^= self.0 >> 7;
        self.0 ^= self.0 << 17;
        ((self.0 >> 11) % n as u64) as usize
    }

    fn var(&mut self, n: usize) -> u8 {
        self.below(n) as u8
    }
}

fn draw(rng: &mut Rng, kind: u8, n: usize, labels: usize) -> [u8; 4] {
    let (x, y) = (rng.var(n), rng.var(n));
    match kind {
        1..=5 | 9 => [kind, x, y, 0],
        6 | 7 => [kind, x, 0, 0],
        _ => [8, x, 0, 1 + rng.below(labels) as u8],
    }
}

// Any records, kinds as often as `often` says.
pub fn free(rng: &mut Rng, n: usize, records: usize, often: &[u8]) -> Vec<u8> {
    let mut file = Vec::new();
    for _ in 0..records {
        let kind = often[rng.below(often.len())];
        file.extend(draw(rng, kind, n, 3));
    }
    file
}

// Records that one tree of `nodes` nodes, 2 or more, meets; `wrong` in a hundred of the sets get one record that need not be met.
pub fn planted(rng: &mut Rng, n: usize, nodes: usize, records: usize, wrong: usize, often: &[u8]) -> Vec<u8> {
    // a new node hangs near the last ones, so that trees are neither stars nor chains; the document node has one child and no label
    let parent: Vec<usize> = (0..nodes).map(|v| if v < 2 { 0 } else { v - 1 - rng.below(3.min(v - 1)) }).collect();
    let label: Vec<u8> = (0..nodes).map(|v| if v == 0 { 0 } else { 1 + rng.below(3) as u8 }).collect();
    let place: Vec<usize> = (0..n).map(|_| rng.below(nodes)).collect();
    let above = |u: usize, mut v: usize| {
        while v > u {
            v = parent[v];
        }
        u == v
    };
    let mut file = Vec::new();
    while file.len() < 4 * records {
        let kind = often[rng.below(often.len())];
        // kinds that few variables meet are given up after some draws
        for _ in 0..40 {
            let r = draw(rng, kind, n, 3);
            let (x, y) = (r[1] as usize, r[2] as usize);
            let (u, v) = (place[x], place[y]);
            let met = match kind {
                1 => v != 0 && parent[v] == u,
                // nothing is said of a variable and itself
                2 => x != y && above(u, v),
                3 => u != v && above(u, v),
                4 => x != y && u == v,
                5 => u != v,
                6 => u == 0,
                7 => !(1..nodes).any(|w| parent[w] == u),
                8 => label[u] == r[3],
                _ => u != 0 && u < v && parent[u] == parent[v],
            };
            if met {
                file.extend(r);
                break;
            }
        }
        // nothing at all can be met by the kinds asked for
        if rng.below(400) == 0 {
            break;
        }
    }
    if rng.below(100) < wrong {
        let kind = often[rng.below(often.len())];
        let r = draw(rng, kind, n, 3);
        let records = file.len() / 4;
        if records > 0 {
            let at = 4 * rng.below(records);
            file[at..at + 4].copy_from_slice(&r);
        }
    }
    file
}

// Kinds 1 to 8 as an exam sets them: mostly child and below.
pub const MIXED: [u8; 16] = [1, 1, 1, 1, 2, 2, 2, 3, 3, 4, 5, 5, 6, 7, 8, 8];
const CROWDED: [u8; 12] = [1, 2, 2, 2, 2, 2, 2, 3, 5, 5, 4, 8];
const MERGING: [u8; 12] = [1, 1, 1, 1, 2, 2, 4, 4, 7, 7, 5, 8];
const ROOTED: [u8; 12] = [1, 1, 1, 1, 2, 5, 5, 6, 6, 6, 7, 8];
// The same with more roots, and with before.
pub const MIXED_ROOT: [u8; 17] = [1, 1, 1, 1, 2, 2, 2, 3, 3, 4, 5, 5, 6, 6, 7, 8, 8];
pub const MIXED_BEFORE: [u8; 20] = [1, 1, 1, 1, 2, 2, 2, 3, 3, 4, 5, 5, 6, 7, 8, 8, 9, 9, 9, 9];
const CROWDED_BEFORE: [u8; 12] = [1, 2, 2, 2, 2, 2, 2, 3, 5, 9, 9, 8];
const MERGING_BEFORE: [u8; 14] = [1, 1, 1, 1, 2, 2, 4, 4, 7, 7, 5, 9, 9, 9];
const ROOTED_BEFORE: [u8; 13] = [1, 1, 1, 1, 2, 5, 6, 6, 6, 7, 8, 9, 9];

// A day of ordinary sets: n 4 to 12, 1 to 30 records, one set in ten with a record that need not be met. Each has a record of the kinds
// in `all`.
pub fn day(seed: u64, sets: usize, often: &[u8], all: &[u8]) -> Vec<Vec<u8>> {
    let mut rng = Rng(seed);
    let mut day = Vec::new();
    while day.len() < sets {
        let n = 4 + rng.below(9);
        let records = 1 + rng.below(30);
        let nodes = 3 + rng.below(n + 2);
        let file = planted(&mut rng, n, nodes, records, 10, often);
        if all.iter().all(|&kind| file.chunks_exact(4).any(|r| r[0] == kind)) {
            day.push(file);
        }
    }
    day
}

// The same files with letters for labels, each record's in either case: all else about them stays.
pub fn lettered(seed: u64, files: &[Vec<u8>]) -> Vec<Vec<u8>> {
    let mut rng = Rng(seed);
    files.iter().map(|file| with_letters(&mut rng, file.clone())).collect()
}

fn with_letters(rng: &mut Rng, mut file: Vec<u8>) -> Vec<u8> {
    for r in file.chunks_exact_mut(4).filter(|r| r[0] == 8 && (1..=26).contains(&r[3])) {
        r[3] += [b'a', b'A'][rng.below(2)] - 1;
    }
    file
}

// Sheets of 256 records, each of any kind.
pub fn full_sheets(seed: u64, sheets: usize) -> Vec<Vec<u8>> {
    let mut rng = Rng(seed);
    (0..sheets).map(|_| free(&mut rng, 16, 256, &[1, 2, 3, 4, 5, 6, 7, 8, 9])).collect()
}

// The same with a record at some place that one of questions 3 to 6 refuses.
pub fn bad_sheets(seed: u64, sheets: &[Vec<u8>]) -> Vec<Vec<u8>> {
    let mut rng = Rng(seed);
    let bad = [[10, 0, 0, 0], [0, 0, 0, 0], [1, 16, 0, 0], [9, 0, 16, 0], [8, 0, 0, 0], [6, 0, 16, 0], [2, 0, 0, 1]];
    let damaged = |sheet: &Vec<u8>| {
        let mut file = sheet.clone();
        let at = 4 * rng.below(file.len() / 4);
        file[at..at + 4].copy_from_slice(&bad[rng.below(bad.len())]);
        file
    };
    sheets.iter().map(damaged).collect()
}

// Sets to compare solvers on: free and planted ones of any size, some damaged.
pub fn trial(rng: &mut Rng) -> Vec<u8> {
    let n = 1 + rng.below(16);
    let most = [4, 12, 30, 60][rng.below(4)];
    let records = rng.below(most + 1);
    let lists = [
        &MIXED[..],
        &CROWDED,
        &MERGING,
        &ROOTED,
        &MIXED_ROOT,
        &MIXED_BEFORE,
        &CROWDED_BEFORE,
        &MERGING_BEFORE,
        &ROOTED_BEFORE,
    ];
    let often = lists[rng.below(lists.len())];
    let mut file = match rng.below(3) {
        0 => free(rng, n, records, often),
        _ => {
            let nodes = 2 + rng.below(2 * n);
            planted(rng, n, nodes, records, 30, often)
        }
    };
    if rng.below(3) == 0 {
        file = with_letters(rng, file);
    }
    if rng.below(12) == 0 && !file.is_empty() {
        let at = rng.below(file.len());
        match rng.below(8) {
            0 => file.insert(at, 1),
            1 => drop(file.remove(at)),
            2 => file.extend([1; 1024]),
            3 => file[at] = 0,
            _ => file[at] = rng.below(20) as u8,
        }
    }
    file
}

// No tree meets it: two children of one parent are both above one variable. `free` variables above variable 0 multiply the search.
// n is 4 + free; the records are 5 and one for each free variable but the first.
pub fn hopeless(free: usize) -> Vec<u8> {
    let f = free as u8;
    let mut file = Vec::new();
    for x in 1..f {
        file.extend([2, x, 0, 0]);
    }
    for r in [[1, f, f + 1, 0], [1, f, f + 2, 0], [5, f + 1, f + 2, 0], [2, f + 1, f + 3, 0], [2, f + 2, f + 3, 0]] {
        file.extend(r);
    }
    file
}

// `records` variables above one more: a tree after records x (records - 1) / 2 choices.
pub fn climb(records: usize) -> Vec<u8> {
    (0..records).flat_map(|x| [2, x as u8, records as u8, 0]).collect()
}

// The records of a file over and over, up to a number.
pub fn repeated(file: &[u8], records: usize) -> Vec<u8> {
    file.iter().copied().cycle().take(4 * records).collect()
}
