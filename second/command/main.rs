//! Runs the command `cudreth` and holds what it prints, standard output, standard error and exit status, byte for byte to what docs/FORMAT.md says:
//! marks of pairs in one run, of several answers, questions solved and then marked, paths and trees converted, in bytes, in text with and
//! without noise, and damaged. Every verdict and every place is the second side's. Stops at the first run that differs, with exit status 1.
//!
//! usage: command PROGRAM      from the root of the repository

mod complaint;
mod converting;
mod damage;
mod drawing;
mod draws;
mod forms;
mod held;
mod judge;
mod large;
mod lines;
mod noise;
mod pairs;
mod papers;
mod path_machine;
mod places;
mod reader;
mod run;
mod says;
mod seen;
mod several;
mod solving;
mod words;
mod xml_machine;

use questions::Random;
use run::FILES;
use runner::Part;
use seen::Seen;
use std::fmt::Display;
use std::path::PathBuf;
use std::time::Instant;

const SEED: u64 = 1;

pub struct Trial {
    program: PathBuf,
    random: Random,
    runs: u64,
    pairs: u64,
    seen: Seen,
}

/// What is run, in this order.
const PARTS: [Part<Trial>; 7] = [
    ("lists of pairs", Trial::lists_of_pairs),
    ("several answers", Trial::several_answers),
    ("questions solved", Trial::solving),
    ("solved and then marked", Trial::solved_and_marked),
    ("texts of paths", Trial::texts_of_paths),
    ("trees as XML", Trial::trees_as_xml),
    ("large files", Trial::large_files),
];

fn main() {
    let words: Vec<String> = std::env::args().skip(1).collect();
    let [program] = words.as_slice() else {
        eprintln!("usage: command PROGRAM");
        std::process::exit(2);
    };
    let program = std::fs::canonicalize(program).unwrap_or_else(|error| fail(program, &error));
    run::empty_folder();
    let start = Instant::now();
    let mut trial = Trial { program, random: Random::new(SEED), runs: 0, pairs: 0, seen: Seen::default() };
    let tried = runner::tried(&mut trial, &PARTS, |trial| trial.runs);
    let sorts = trial.seen.all_that_must().unwrap_or_else(|sort| fail("coverage", &format!("'{sort}' never came up")));
    println!(
        "command: {} runs and {} pairs of files in {} s, each as expected on standard output, on standard error and in its status: {}; all \
         {sorts} sorts came up",
        trial.runs,
        trial.pairs,
        start.elapsed().as_secs(),
        tried,
    );
}

fn fail(name: &str, how: &dyn Display) -> ! {
    println!("command: {name}: {how}");
    println!("the files are in {FILES}");
    std::process::exit(1);
}
