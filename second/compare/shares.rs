//! The comparison shared out among the processors that there are, and what came up in the shares put together.

use crate::meaning::all_ordered_trees;
use crate::Comparison;
use questions::Random;
use std::collections::BTreeMap;
use std::sync::atomic::{AtomicUsize, Ordering};
use std::thread;
use std::time::{Duration, Instant};

/// What is compared whatever the seed, what takes longest first.
const PARTS: [fn(&mut Comparison); 15] = [
    Comparison::all_small_questions,
    Comparison::all_small_documents,
    Comparison::all_small_paths,
    Comparison::all_small_overlaps,
    Comparison::all_small_shuffles,
    Comparison::all_small_capitals,
    Comparison::all_small_draws,
    Comparison::all_small_paths_with_capitals,
    Comparison::all_small_texts_as_trees,
    Comparison::all_small_passes,
    Comparison::all_small_trees_as_xml,
    Comparison::xml_limits,
    Comparison::all_small_answers,
    Comparison::long_answers,
    Comparison::empty_files,
];

/// As deep as on the main thread.
const STACK_BYTES: usize = 8 << 20;

/// All parts once; then random questions, texts of paths, trees as XML and draws by centres on each processor for so many seconds.
pub fn compared(seconds: u64, seed: u64) -> Comparison {
    all_ordered_trees();
    let next_part = AtomicUsize::new(0);
    let mut seeds = Random::new(seed);
    thread::scope(|scope| {
        let share = |seed| {
            let next_part = &next_part;
            let worker = thread::Builder::new().stack_size(STACK_BYTES);
            worker.spawn_scoped(scope, move || Comparison::new(seed).share(next_part, seconds)).expect("a thread")
        };
        let processors = thread::available_parallelism().map_or(1, |number| number.get());
        let shares: Vec<_> = (0..processors).map(|_| share(seeds.next())).collect();
        let shares = shares.into_iter().map(|share| share.join().expect("a share that has ended"));
        shares.reduce(Comparison::with).expect("at least one share")
    })
}

impl Comparison {
    fn share(mut self, next_part: &AtomicUsize, seconds: u64) -> Comparison {
        while let Some(part) = PARTS.get(next_part.fetch_add(1, Ordering::Relaxed)) {
            part(&mut self);
        }
        let deadline = Instant::now() + Duration::from_secs(seconds);
        while Instant::now() < deadline {
            self.round();
            self.round();
            self.path_round();
            // They are short.
            (0..8).for_each(|_| self.xml_round());
            (0..4).for_each(|_| self.draw_round());
        }
        self
    }

    /// What came up in either.
    fn with(mut self, other: Comparison) -> Comparison {
        for (sort, count) in other.compared {
            self.count(sort, count);
        }
        add(&mut self.seen, other.seen);
        add(&mut self.counts, other.counts);
        self.against_all_small_trees += other.against_all_small_trees;
        self.brothers.add(other.brothers);
        self.document.add(other.document);
        self.capitals.add(other.capitals);
        self.shuffles.add(other.shuffles);
        self.passes.add(other.passes);
        self.xml.add(other.xml);
        self.draws.add(other.draws);
        self.overlap.add(other.overlap);
        add(&mut self.path_sorts, other.path_sorts);
        self.selections.trees += other.selections.trees;
        self.selections.nones += other.selections.nones;
        self.selections.tree_by_tree += other.selections.tree_by_tree;
        self
    }
}

/// How often each came up in either.
pub fn add<K: Ord>(times: &mut BTreeMap<K, u64>, more: BTreeMap<K, u64>) {
    for (what, count) in more {
        *times.entry(what).or_default() += count;
    }
}
