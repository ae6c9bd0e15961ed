// Marks per second of `cudreth_mark` (the proved marker, from target/staticlib/libcapi.a) beside two plain Rust markers, in one run.
// Each case is 256 records against 64 nodes, all met, so that every record is looked at. bench/marker/run builds and runs it.
use std::hint::black_box;
use std::time::Instant;

mod cases;
#[allow(dead_code)]
#[path = "../../include/cudreth.rs"]
mod cudreth;
mod plain;

use cases::{agree, cases, Case};
use cudreth::cudreth_mark;

fn proved(constraints: &[u8], answer: &[u8]) -> u64 {
    unsafe { cudreth_mark(constraints.as_ptr(), constraints.len(), answer.as_ptr(), answer.len()) }
}

// Nanoseconds for a mark by each of three markers: the least of many short runs, taken in turn, which is what the machine can do when
// nothing else takes its core.
fn nanoseconds(markers: [fn(&[u8], &[u8]) -> u64; 3], case: &Case) -> [f64; 3] {
    let mut least = [f64::MAX; 3];
    for _ in 0..400 {
        for (mark, least) in markers.iter().zip(&mut least) {
            let start = Instant::now();
            for _ in 0..500 {
                black_box(mark(black_box(&case.constraints), black_box(&case.answer)));
            }
            *least = least.min(start.elapsed().as_secs_f64() * 1e9 / 500.0);
        }
    }
    least
}

fn main() {
    let markers = [proved, plain::mark, plain::mark_by_sets];
    println!("they agree on 300000 random pairs of files, of {} sorts of answer\n", agree(markers, 300_000));
    println!("| 256 records, 64 nodes | proved | marks/s | plain, walking up | ratio | plain, ancestor sets | ratio |");
    println!("|---|---|---|---|---|---|---|");
    for case in cases() {
        assert_eq!(case.constraints.len(), 1024);
        assert_eq!(markers.map(|mark| mark(&case.constraints, &case.answer)), [0; 3]);
        let [p, walking, sets] = nanoseconds(markers, &case);
        println!(
            "| {} | {p:.0} ns | {:.0} | {walking:.0} ns | {:.2} | {sets:.0} ns | {:.2} |",
            case.name,
            1e9 / p,
            p / walking,
            p / sets
        );
    }
}
