//! Compares the archive with the second side, and the second side with the meaning itself on small questions. Stops at the first
//! disagreement with the input in hex and exit status 1.
//!
//! usage: compare [--seconds N] [--seed S]

mod answers;
mod brothers;
mod came_up;
mod capital_paths;
mod capitals;
mod document;
mod draw_rounds;
mod draw_sorts;
mod draws;
mod meaning;
mod one_pass;
mod ordered;
mod overlap;
mod path_rounds;
mod path_sorts;
mod paths;
mod renumbered;
mod reordered;
mod rounds;
mod selection;
mod shares;
mod shuffled;
mod small;
mod small_capitals;
mod small_document;
mod small_draws;
mod small_overlap;
mod small_passes;
mod small_shuffles;
mod small_xml_texts;
mod small_xml_trees;
mod xml;
mod xml_limits;
mod xml_rounds;
mod xml_sorts;

use brothers::BROTHERS;
use came_up::CameUp;
use capitals::CAPITALS;
use document::DOCUMENT;
use draw_sorts::DRAWS;
use one_pass::PASSES;
use overlap::OVERLAP;
use path_sorts::PathSorts;
use questions::Random;
use second::constraint;
use second::search::Trace;
use second::verdict::{MarkerVerdict, SolverVerdict};
use second::Refusal;
use selection::{Selections, SmallTrees};
use shuffled::SHUFFLES;
use std::collections::BTreeMap;
use std::time::{Duration, Instant};
use xml_sorts::XML;

struct Comparison {
    random: Random,
    /// How many inputs of each sort were compared, in the order in which the sorts first came up.
    compared: Vec<(&'static str, u64)>,
    /// How often each verdict came up.
    seen: BTreeMap<String, u64>,
    /// How often the fixed search ended, by the number of digits of its count.
    counts: BTreeMap<usize, u64>,
    /// How many verdicts of the second solver were held against every small tree.
    against_all_small_trees: u64,
    brothers: CameUp,
    document: CameUp,
    capitals: CameUp,
    shuffles: CameUp,
    passes: CameUp,
    xml: CameUp,
    draws: CameUp,
    overlap: CameUp,
    path_sorts: PathSorts,
    selections: Selections,
    small_trees: SmallTrees,
}

fn main() {
    let mut seconds = 30;
    let mut seed = 1;
    let words: Vec<String> = std::env::args().skip(1).collect();
    for option in words.chunks(2) {
        match (option[0].as_str(), option.get(1).and_then(|word| word.parse().ok())) {
            ("--seconds", Some(number)) => seconds = number,
            ("--seed", Some(number)) => seed = number,
            _ => {
                eprintln!("usage: compare [--seconds N] [--seed S]");
                std::process::exit(2);
            }
        }
    }
    println!(
        "compare: seed {seed}; all that is small, then random questions, texts, trees and draws on each processor for {seconds} s"
    );
    let start = Instant::now();
    shares::compared(seconds, seed).report(start.elapsed());
}

fn disagree(sort: &str, how: &str) -> ! {
    println!("DISAGREEMENT ({sort}): {how}");
    std::process::exit(1);
}

impl Comparison {
    fn new(seed: u64) -> Comparison {
        Comparison {
            random: Random::new(seed),
            compared: Vec::new(),
            seen: BTreeMap::new(),
            counts: BTreeMap::new(),
            against_all_small_trees: 0,
            brothers: CameUp::new(&BROTHERS),
            document: CameUp::new(&DOCUMENT),
            capitals: CameUp::new(&CAPITALS),
            shuffles: CameUp::new(&SHUFFLES),
            passes: CameUp::new(&PASSES),
            xml: CameUp::new(&XML),
            draws: CameUp::new(&DRAWS),
            overlap: CameUp::new(&OVERLAP),
            path_sorts: PathSorts::default(),
            selections: Selections::default(),
            small_trees: SmallTrees::default(),
        }
    }

    fn count(&mut self, sort: &'static str, inputs: u64) {
        match self.compared.iter_mut().find(|(name, _)| *name == sort) {
            Some((_, count)) => *count += inputs,
            None => self.compared.push((sort, inputs)),
        }
    }

    fn tally(&mut self, sort: &'static str, verdict: String) {
        self.count(sort, 1);
        *self.seen.entry(verdict).or_default() += 1;
    }

    fn hold_solver(
        &mut self,
        sort: &'static str,
        file: &[u8],
        buffer: usize,
        allowance: u32,
        expected: &SolverVerdict,
    ) {
        if let Err(disagreement) = archive::hold_solver(file, buffer, allowance, expected) {
            disagree(sort, &disagreement.0);
        }
        let verdict = match expected {
            SolverVerdict::Tree { .. } => "tree".to_string(),
            SolverVerdict::None { .. } => "none".to_string(),
            SolverVerdict::Spent { .. } => "spent".to_string(),
            SolverVerdict::Refused(Refusal(question)) => format!("solver refused {question}"),
        };
        self.tally(sort, verdict);
    }

    fn solve(&mut self, sort: &'static str, file: &[u8], buffer: usize, allowance: u32) -> SolverVerdict {
        self.solve_traced(sort, file, buffer, allowance).0
    }

    fn solve_traced(
        &mut self,
        sort: &'static str,
        file: &[u8],
        buffer: usize,
        allowance: u32,
    ) -> (SolverVerdict, Trace) {
        let (verdict, trace) = second::solve_traced(file, buffer, allowance);
        self.hold_solver(sort, file, buffer, allowance, &verdict);
        self.note_brothers(file, &verdict, &trace);
        self.note_document(file, buffer, &verdict, &trace);
        self.note_capitals(file, &verdict, &trace);
        self.note_overlap(&trace);
        (verdict, trace)
    }

    fn mark(&mut self, sort: &'static str, file: &[u8], answer_file: &[u8]) -> MarkerVerdict {
        let expected = second::mark(file, answer_file);
        if let Err(disagreement) = archive::hold_marker(file, answer_file, &expected) {
            disagree(sort, &disagreement.0);
        }
        let verdict = match expected {
            MarkerVerdict::Met => "met".to_string(),
            MarkerVerdict::Unmet { kind, .. } => format!("unmet {}", constraint::KIND_NAMES[kind as usize - 1]),
            MarkerVerdict::Refused(Refusal(question)) => format!("marker refused {question}"),
        };
        self.tally(sort, verdict);
        self.note_document_marked(answer_file, &expected);
        self.note_capitals_marked(file, answer_file, &expected);
        expected
    }

    fn report(&self, took: Duration) {
        let must_be_seen = (1..=7)
            .map(|question| format!("solver refused {question}"))
            .chain((1..=6).chain(8..=12).map(|question| format!("marker refused {question}")))
            .chain(constraint::KIND_NAMES.iter().map(|name| format!("unmet {name}")))
            .chain([7, 13, 14].map(|question| format!("paths refused {question}")))
            .chain([8, 9, 10, 11, 15, 17].map(|question| format!("xml write, refused {question}")))
            .chain([16, 17].map(|question| format!("xml read, refused {question}")))
            .chain(["tree", "none", "spent", "met", "paths written"].map(String::from))
            .chain([18, 19, 20].map(|question| format!("draw refused {question}")))
            .chain(["xml write, written", "xml read, written", "draw granted"].map(String::from));
        let not_seen = must_be_seen.into_iter().find(|verdict| !self.seen.contains_key(verdict));
        let came_up = [
            &self.brothers,
            &self.document,
            &self.capitals,
            &self.shuffles,
            &self.passes,
            &self.xml,
            &self.draws,
            &self.overlap,
        ];
        let not_seen = not_seen.or_else(|| came_up.into_iter().find_map(CameUp::missing));
        if let Some(sort) = not_seen.or_else(|| self.path_sort_not_seen()) {
            println!("compare: '{sort}' never came up; a longer run is needed");
            std::process::exit(1);
        }
        let verdicts: Vec<String> = self.seen.iter().map(|(verdict, times)| format!("{verdict} {times}")).collect();
        println!("compare: verdicts: {}", verdicts.join(", "));
        let counts: Vec<String> = self.counts.iter().map(|(digits, times)| format!("{digits} in {times}")).collect();
        println!("compare: digits of the count of choices in random questions: {}", counts.join(", "));
        println!("compare: {} verdicts of the second solver agree with all small trees", self.against_all_small_trees);
        println!("compare: brothers in order: {}", self.brothers);
        println!("compare: the document node: {}", self.document);
        println!("compare: capitals: {}", self.capitals);
        println!("compare: shuffled papers: {}", self.shuffles);
        println!("compare: one pass: {}", self.passes);
        println!("compare: trees as XML: {}", self.xml);
        println!("compare: draws by centres: {}", self.draws);
        println!("compare: the chain join's overlap: {}", self.overlap);
        let Selections { trees, nones, tree_by_tree } = self.selections;
        println!(
            "compare: paths against definition 2.3: variable 0 selected in {trees} trees found; {nones} times none, and no tree of up to \
             n + 2 nodes has a node selected; {tree_by_tree} texts tree by tree"
        );
        let sorts: Vec<String> = self.compared.iter().map(|(sort, count)| format!("{count} {sort}")).collect();
        let total: u64 = self.compared.iter().map(|(_, count)| count).sum();
        println!("compare: {total} inputs compared in {} s, none disagreed: {}", took.as_secs(), sorts.join("; "));
    }
}
