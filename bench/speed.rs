// The proved solver, marker, gate, reader of paths and writer and reader of XML (target/staticlib/libcapi.a) beside plain Rust, in one run:
// first that both give the same results, then the times: medians of 31 rounds, taken in turn by both. bench/run builds and runs it.
use std::hint::black_box;

#[path = "../include/cudreth.rs"]
mod cudreth;
mod gate;
mod paths;
#[path = "marker/plain.rs"]
mod plain;
mod readers;
mod sets;
#[path = "marker/cases.rs"]
mod sheets;
mod solver;
mod trees;
mod words;
mod xml;

use cudreth::{cudreth_mark, cudreth_solve};

// A clock of the C library: the time that this thread had a core, which others on the machine do not lengthen by waiting.
extern "C" {
    fn clock_gettime(clock: i32, time: *mut [i64; 2]) -> i32;
}
const THREAD: i32 = 3;

fn now() -> f64 {
    let mut time = [0; 2];
    assert_eq!(unsafe { clock_gettime(THREAD, &mut time) }, 0);
    time[0] as f64 * 1e9 + time[1] as f64
}

type Solver = fn(&[u8], &mut [u8], u32) -> u64;
type Marker = fn(&[u8], &[u8]) -> u64;

fn proved_solve(file: &[u8], answer: &mut [u8], allowance: u32) -> u64 {
    unsafe { cudreth_solve(file.as_ptr(), file.len(), answer.as_mut_ptr(), answer.len(), allowance) }
}

fn proved_mark(file: &[u8], answer: &[u8]) -> u64 {
    unsafe { cudreth_mark(file.as_ptr(), file.len(), answer.as_ptr(), answer.len()) }
}

// The shortest buffer that the solver takes: 18 nodes and 16 places.
const BUFFER: usize = 136;

const SOLVERS: [Solver; 2] = [proved_solve, solver::solve];
const MARKERS: [Marker; 3] = [proved_mark, plain::mark, plain::mark_by_sets];

// Result and every byte of the buffer of both solvers, which must be equal.
fn both(file: &[u8], buffer: usize, allowance: u32, noise: u8) -> u64 {
    let ends = SOLVERS.map(|solve| {
        let mut answer = vec![noise; buffer];
        let end = solve(file, &mut answer, allowance);
        (end, answer)
    });
    assert!(ends[0] == ends[1], "they differ on {file:?}, allowance {allowance}: {ends:x?}");
    ends[0].0
}

fn count(end: u64) -> u64 {
    if end >> 48 < 3 {
        end & 0xffff_ffff
    } else {
        0
    }
}

fn verdict(end: u64) -> &'static str {
    ["tree", "none", "spent", "refused"][(end >> 48) as usize]
}

fn median(mut times: Vec<f64>) -> f64 {
    times.sort_by(f64::total_cmp);
    times[times.len() / 2]
}

// Nanoseconds for one call of each of the functions: rounds of at least three milliseconds each, in turn, so that what else the machine
// does falls on all of them.
fn rounds<const N: usize>(rounds: usize, functions: [&mut dyn FnMut() -> u64; N]) -> Vec<[f64; N]> {
    let mut calls = [0; N];
    for i in 0..N {
        let start = now();
        while calls[i] == 0 || now() - start < 3e6 {
            for _ in 0..1 + calls[i] / 4 {
                black_box(functions[i]());
            }
            calls[i] += 1 + calls[i] / 4;
        }
    }
    let mut round = || {
        let mut times = [0.0; N];
        for i in 0..N {
            let start = now();
            for _ in 0..calls[i] {
                black_box(functions[i]());
            }
            times[i] = (now() - start) / calls[i] as f64;
        }
        times
    };
    (0..rounds).map(|_| round()).collect()
}

// The proved and the plain one: medians of both times, and of their ratios round by round.
struct Times {
    proved: f64,
    plain: f64,
    ratio: f64,
}

impl Times {
    fn of(rounds: &[[f64; 2]], each: f64) -> Times {
        let over = |f: fn(&[f64; 2]) -> f64| median(rounds.iter().map(f).collect());
        Times { proved: over(|r| r[0]) / each, plain: over(|r| r[1]) / each, ratio: over(|r| r[0] / r[1]) }
    }
}

// Both solvers on a file, for each of `each` things.
fn solving(file: &[u8], allowance: u32, each: f64) -> Times {
    let mut answers = [[0u8; BUFFER]; 2];
    let [a, b] = &mut answers;
    let times = rounds(
        31,
        [&mut || proved_solve(black_box(file), a, allowance), &mut || solver::solve(black_box(file), b, allowance)],
    );
    Times::of(&times, each)
}

// Both solvers, for each choice, without what the set costs before its first one: with an allowance of 0 both stop there.
fn choosing(file: &[u8], allowance: u32) -> (u64, Times) {
    let end = both(file, BUFFER, allowance, 0);
    let mut answers = [[0u8; BUFFER]; 4];
    let [a, b, c, d] = &mut answers;
    let times = rounds(
        31,
        [
            &mut || proved_solve(black_box(file), a, allowance),
            &mut || proved_solve(black_box(file), b, 0),
            &mut || solver::solve(black_box(file), c, allowance),
            &mut || solver::solve(black_box(file), d, 0),
        ],
    );
    let beyond: Vec<[f64; 2]> = times.iter().map(|r| [r[0] - r[1], r[2] - r[3]]).collect();
    (end, Times::of(&beyond, count(end) as f64))
}

struct Input {
    name: String,
    expected: String,
    shape: String,
    file: Vec<u8>,
}

fn inputs(dir: &str) -> Vec<Input> {
    let counts = std::fs::read_to_string(format!("{dir}/COUNTS.txt")).expect("COUNTS.txt");
    let line = |l: &str| {
        let w: Vec<&str> = l.split_whitespace().collect();
        let file = std::fs::read(format!("{dir}/{}", w[0])).expect(w[0]);
        Input { name: w[0].into(), expected: format!("{} {}", w[1], w[2]), shape: format!("{} {}", w[3], w[4]), file }
    };
    counts.lines().map(line).collect()
}

fn has(file: &[u8], kind: u8) -> bool {
    file.chunks_exact(4).any(|r| r[0] == kind)
}

fn agree(inputs: &[Input], days: &[Day], trials: usize) {
    let mut verdicts = [0usize; 4];
    let mut choices = 0;
    let [mut before, mut root] = [0, 0];
    let mut seen = |file: &[u8], end: u64| {
        verdicts[(end >> 48) as usize] += 1;
        choices += count(end);
        before += has(file, cudreth::BEFORE) as usize;
        root += has(file, cudreth::ROOT) as usize;
    };
    for input in inputs {
        let end = both(&input.file, BUFFER, u32::MAX, 7);
        assert!(format!("{} {}", verdict(end), count(end)) == input.expected, "{}: {end:x}", input.name);
        seen(&input.file, end);
        for allowance in [0, count(end).saturating_sub(1) as u32, count(end) as u32] {
            seen(&input.file, both(&input.file, BUFFER + 8, allowance, 7));
        }
        seen(&input.file, both(&input.file, BUFFER - 1, u32::MAX, 7));
    }
    for file in days.iter().flat_map(|day| &day.sets) {
        seen(file, both(file, BUFFER, u32::MAX, 7));
    }
    let mut rng = sets::Rng(0x9e37_79b9_7f4a_7c15);
    for _ in 0..trials {
        let file = sets::trial(&mut rng);
        let buffer = if rng.below(30) == 0 { rng.below(BUFFER) } else { BUFFER + rng.below(3) };
        let allowance = [0, 1, 2, 5, 100, 5000][rng.below(6)];
        seen(&file, both(&file, buffer, allowance, rng.below(256) as u8));
    }
    let [tree, none, spent, refused] = verdicts;
    println!(
        "solvers: equal results and bytes on {} inputs, {before} of them with before and {root} with a root ({tree} tree, \
        {none} none, {spent} spent, {refused} refused; {choices} choices)",
        verdicts.iter().sum::<usize>()
    );
    println!(
        "markers: equal results on {trials} pairs of files, of {} sorts of verdict",
        sheets::agree(MARKERS, trials)
    );
}

fn head(title: &str) {
    println!("\n{title:<68} {:>9} {:>9} {:>6}", "proved", "plain", "ratio");
}

fn line(name: &str, t: &Times) {
    print!("{name:<68} {:>9.1} {:>9.1} {:>6.2}", t.proved, t.plain, t.ratio);
}

fn row(name: &str, times: Times) {
    line(name, &times);
    println!();
}

fn bounded(name: &str, times: Times, bound: f64) {
    line(name, &times);
    println!("  {} {bound}", if times.ratio > bound { "OVER" } else { "within" });
}

fn time_files(inputs: &[Input]) {
    let shape = |input: &Input, choices: u64| {
        format!("{}, {choices} choices, {}", input.name.trim_end_matches(".bin"), input.shape)
    };
    let (many, few): (Vec<_>, Vec<_>) = inputs
        .iter()
        .map(|input| (input, count(both(&input.file, BUFFER, u32::MAX, 0))))
        .partition(|(_, choices)| *choices > 1000);
    let (ordered, many): (Vec<_>, Vec<_>) = many.into_iter().partition(|(input, _)| has(&input.file, cudreth::BEFORE));
    let (rooted, many): (Vec<_>, Vec<_>) = many.into_iter().partition(|(input, _)| has(&input.file, cudreth::ROOT));
    for (title, files) in [
        ("(a) benchmark files", many),
        ("    benchmark files with a root", rooted),
        ("    benchmark files with before", ordered),
    ] {
        head(&format!("{title}, ns for each choice"));
        for (input, choices) in files {
            bounded(&shape(input, choices), solving(&input.file, u32::MAX, choices as f64), 3.0);
        }
    }
    head("    files of few choices, ns for each set");
    for (input, choices) in few {
        row(&shape(input, choices), solving(&input.file, u32::MAX, 1.0));
    }
}

struct Day {
    name: &'static str,
    sets: Vec<Vec<u8>>,
}

fn days() -> [Day; 4] {
    let ordinary = sets::day(20_261_115, 40_000, &sets::MIXED, &[]);
    let lettered = sets::lettered(20_261_120, &ordinary);
    [
        Day { name: "ordinary sets", sets: ordinary },
        Day {
            name: "ordinary sets with a root",
            sets: sets::day(20_261_119, 40_000, &sets::MIXED_ROOT, &[cudreth::ROOT]),
        },
        Day {
            name: "ordinary sets with before",
            sets: sets::day(20_261_116, 40_000, &sets::MIXED_BEFORE, &[cudreth::BEFORE]),
        },
        Day { name: "ordinary sets, letters in both cases", sets: lettered },
    ]
}

fn time_day(mark: &str, Day { name, sets: day }: &Day) {
    head(&format!("{mark:<3} a day of 40,000 {name}, ns"));
    let mut answers = [[0u8; BUFFER]; 2];
    let [a, b] = &mut answers;
    let whole = |solve: Solver, answer: &mut [u8]| {
        day.iter().fold(0, |sum: u64, file| sum.wrapping_add(solve(file, answer, u32::MAX)))
    };
    let times = rounds(31, [&mut || whole(proved_solve, a), &mut || whole(solver::solve, b)]);
    bounded("for each set", Times::of(&times, day.len() as f64), 2.0);
    let ends: Vec<u64> = day.iter().map(|file| both(file, BUFFER, u32::MAX, 0)).collect();
    let trees = ends.iter().filter(|&end| end >> 48 == 0).count();
    let choices: u64 = ends.iter().map(|&end| count(end)).sum();
    let records: usize = day.iter().map(|file| file.len() / 4).sum();
    let each = |sum: f64| sum / day.len() as f64;
    let [records, choices] = [each(records as f64), each(choices as f64)];
    let [before, root] = [cudreth::BEFORE, cudreth::ROOT].map(|kind| day.iter().filter(|file| has(file, kind)).count());
    println!(
        "    {trees} trees, {} none; {records:.1} records and {choices:.2} choices a set; {before} sets with before, {root} with a root",
        day.len() - trees
    );
}

fn time_marker() {
    head("(c) marker, 256 records, 64 nodes, ns a mark");
    for case in sheets::cases() {
        assert_eq!(MARKERS.map(|mark| mark(&case.constraints, &case.answer)), [0; 3]);
        let [p, walking, by_sets] = MARKERS.map(|mark| {
            let (c, a) = (&case.constraints, &case.answer);
            move || mark(black_box(c), black_box(a))
        });
        let times = rounds(31, [&mut { p }, &mut { walking }, &mut { by_sets }]);
        // beside the faster of the two plain ones
        let times: Vec<[f64; 2]> = times.iter().map(|r| [r[0], r[1].min(r[2])]).collect();
        let times = Times::of(&times, 1.0);
        bounded(&format!("{}, {:.0} marks a second", case.name, 1e9 / times.proved), times, 1.5);
    }
}

// Questions 1 to 6 of each of the files: one byte stops the marker at 8, and a buffer that is too short the solver at 7.
fn gates(name: &str, files: &[&[u8]]) {
    for file in files {
        let refused = MARKERS.map(|mark| mark(file, &[1]));
        assert!(refused[0] >> 48 == 3 && refused == [refused[0]; 3], "{name}: {refused:x?}");
        assert_eq!(both(file, BUFFER - 1, 9, 0) >> 48, 3);
    }
    let mut answers = [[0; BUFFER - 1]; 2];
    let [a, b] = &mut answers;
    let marked = |mark: Marker| files.iter().fold(0u64, |sum, file| sum.wrapping_add(mark(black_box(file), &[1])));
    let solved = |solve: Solver, answer: &mut [u8]| {
        files.iter().fold(0u64, |sum, file| sum.wrapping_add(solve(black_box(file), answer, 9)))
    };
    let (mut proved_solver, mut plain_solver) = (|| solved(proved_solve, a), || solved(solver::solve, b));
    let times =
        rounds(31, [&mut || marked(proved_mark), &mut proved_solver, &mut || marked(plain::mark), &mut plain_solver]);
    for (program, i) in [("marker", 0), ("solver", 1)] {
        // beside the faster of the two plain gates
        let times: Vec<[f64; 2]> = times.iter().map(|r| [r[i], r[2].min(r[3])]).collect();
        bounded(&format!("{name}, {program}"), Times::of(&times, files.len() as f64), 1.2);
    }
}

// Different sheets, of which no branch can be learnt by heart; and one file again and again, where it can.
fn time_gate(inputs: &[Input], days: &[Day]) {
    head("    gate alone, 40,000 different sheets, ns a sheet");
    let full = sets::full_sheets(20_261_117, 40_000);
    let bad = sets::bad_sheets(20_261_118, &full);
    let ordinary = days.iter().map(|day| (day.name, &day.sets));
    let whole = [("256 records of all kinds", &full), ("256 records of all kinds, one of them bad", &bad)];
    for (name, files) in ordinary.chain(whole) {
        gates(name, &files.iter().map(Vec::as_slice).collect::<Vec<_>>());
    }
    head("    gate alone, one file of 256 records again and again, ns");
    for input in inputs.iter().filter(|i| i.file.len() == 1024) {
        gates(input.name.trim_end_matches(".bin"), &[&input.file]);
    }
}

fn time_growth() {
    head("(d) growth with n, ns for each choice beyond the set's own");
    for free in 0..=12 {
        let file = sets::hopeless(free);
        let (end, times) = choosing(&file, 50_000);
        let name = format!("n {:>2}, {:>2} records, {} {}", free + 4, file.len() / 4, verdict(end), count(end));
        row(&name, times);
    }
    head("    growth with records, ns for each choice beyond the set's own");
    let hard = &sets::hopeless(8);
    // the small ones stop just before their tree
    let small = [3, 4, 8].map(|records| (sets::climb(records), (records * (records - 1) / 2 - 1) as u32));
    let large = [12, 16, 32, 64, 128, 256].map(|records| (sets::repeated(hard, records), u32::MAX));
    for (file, allowance) in small.into_iter().chain(large) {
        let (end, times) = choosing(&file, allowance);
        row(&format!("{:>3} records, {} {}", file.len() / 4, verdict(end), count(end)), times);
    }
    head("    growth with records, a set without choices, n 3, ns for each set");
    for records in [1, 2, 4, 8, 16, 32, 64, 128, 256] {
        let file = sets::repeated(&[5, 1, 2, 0, 1, 0, 1, 0, 2, 0, 2, 0, 8, 1, 0, 5], records);
        let end = both(&file, BUFFER, u32::MAX, 0);
        row(&format!("{records:>3} records, {} {}", verdict(end), count(end)), solving(&file, u32::MAX, 1.0));
    }
}

fn main() {
    let dir = std::env::args().nth(1).expect("the directory of the inputs");
    let inputs = inputs(&dir);
    let days = days();
    agree(&inputs, &days, 200_000);
    readers::agree(100_000);
    trees::agree(100_000);
    time_files(&inputs);
    for (mark, day) in ["(b)", "", "", ""].iter().zip(&days) {
        time_day(mark, day);
    }
    time_marker();
    time_gate(&inputs, &days);
    time_growth();
    readers::time();
    trees::time();
}
