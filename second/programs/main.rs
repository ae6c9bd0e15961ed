//! Runs the built programs `solve`, `mark`, `paths`, `toxml` and `fromxml` and holds what they print, byte for byte, to what documents 01 and 02
//! say of them: the written questions, the benchmark files with their known counts, every limit, and what happens where a verdict cannot be
//! given or printed. Stops at the first run that differs, with its name and exit status 1. What is expected is written, or the second side's.
//!
//! usage: programs FOLDER OF solve, mark, paths, toxml AND fromxml      from the root of the repository

mod call;
mod capitals;
mod limits;
mod lost;
mod paths;
mod questions;
mod run;
mod seen;
mod together;
mod xml;

use call::{nothing, open, written, Call};
use printed as text;
use run::Said;
use runner::Part;
use second::verdict::{hex, FillVerdict, MarkerVerdict, SolverVerdict};
use seen::Seen;
use std::fmt::Display;
use std::fs::File;
use std::io::Seek;
use std::process::Command;
use std::time::Instant;

/// What `solve` allows its search.
const ALLOWANCE: u32 = 1_000_000;
/// `solve` and `paths` read so many bytes of their standard input, and no more.
const MOST_READ: usize = 1_025;
/// Where the files lie that the programs are given.
const FILES: &str = "target/second/files";

struct Trial {
    solve: String,
    mark: String,
    paths: String,
    toxml: String,
    fromxml: String,
    runs: u64,
    seen: Seen,
    /// Written questions whose result under `solve`'s allowance and buffer the second solver was asked for.
    asked_anew: u64,
    /// Written questions for which that would have taken too long.
    left_out: u64,
}

/// What is run, in this order.
const PARTS: [Part<Trial>; 21] = [
    ("written questions", Trial::written_questions),
    ("benchmark files", Trial::known_counts),
    ("constraint files by length", Trial::lengths_of_constraints),
    ("labels", Trial::every_label),
    ("positions", Trial::every_position),
    ("answer files by length", Trial::lengths_of_answers),
    ("texts of paths by length", Trial::lengths_of_texts),
    ("texts of paths piped on to solve", Trial::piped_to_solve),
    ("capitals to solve", Trial::capitals_solved),
    ("capitals to mark", Trial::capitals_marked),
    ("capitals in texts of paths", Trial::capitals_in_paths),
    ("capitals piped on to solve", Trial::capitals_piped),
    ("trees as XML by hand", Trial::trees_by_hand),
    ("node records by length", Trial::lengths_of_nodes),
    ("texts of XML by length", Trial::lengths_of_xml),
    ("XML piped on", Trial::xml_piped),
    ("files in pieces", Trial::pieces),
    ("texts of paths in pieces", Trial::texts_in_pieces),
    ("XML in pieces", Trial::xml_in_pieces),
    ("usages and losses", Trial::lost),
    ("at once into one pipe", Trial::together),
];

fn main() {
    let words: Vec<String> = std::env::args().skip(1).collect();
    let [folder] = words.as_slice() else {
        eprintln!("usage: programs FOLDER OF solve, mark, paths, toxml AND fromxml");
        std::process::exit(2);
    };
    std::fs::create_dir_all(FILES).unwrap_or_else(|error| fail(FILES, &error));
    let start = Instant::now();
    let mut trial = Trial {
        solve: format!("{folder}/solve"),
        mark: format!("{folder}/mark"),
        paths: format!("{folder}/paths"),
        toxml: format!("{folder}/toxml"),
        fromxml: format!("{folder}/fromxml"),
        runs: 0,
        seen: Seen::default(),
        asked_anew: 0,
        left_out: 0,
    };
    let tried = runner::tried(&mut trial, &PARTS, |trial| trial.runs);
    let sorts = trial.seen.all_that_must().unwrap_or_else(|sort| fail("coverage", &format!("'{sort}' never came up")));
    println!(
        "programs: {} runs in {} s, each as expected and each verdict in one write: {}; of the written questions the second solver \
         answered {} anew for solve's allowance and buffer, and {} were left out as too long; all {sorts} sorts came up",
        trial.runs,
        start.elapsed().as_secs(),
        tried,
        trial.asked_anew,
        trial.left_out,
    );
}

fn fail(name: &str, how: &dyn Display) -> ! {
    println!("programs: {name}: {how}");
    std::process::exit(1);
}

impl Trial {
    fn run(&mut self, command: Command) -> Said {
        self.runs += 1;
        run::run(command)
    }

    fn run_into(&mut self, stdout: File, command: Command) -> Said {
        self.runs += 1;
        run::run_into(stdout, command)
    }

    /// The open file has one position, here and in the program.
    fn solving(&self, input: &File) -> Call {
        Call::new(&self.solve, &[], input.try_clone().expect("an open file is lent"))
    }

    fn marking(&self, constraints: &[u8], answer: &[u8]) -> Call {
        Call::new(&self.mark, &[&written("constraints", constraints), &written("answer", answer)], nothing())
    }

    fn reading_paths(&self, input: &File) -> Call {
        Call::new(&self.paths, &[], input.try_clone().expect("an open file is lent"))
    }

    /// Holds `solve` to the text of a verdict, and to reading no byte too many.
    fn solve(&mut self, name: &str, constraints: &[u8], verdict: &SolverVerdict) {
        let input = open(&written("constraints", constraints));
        let said = self.run(self.solving(&input).command());
        hold_verdict(name, &said, text::of_solve(verdict), &[("constraints", constraints)]);
        hold_read(name, input, constraints, MOST_READ);
        self.seen.solve(constraints, verdict);
    }

    /// Holds `paths` to the bytes of a verdict, and to reading no byte too many.
    fn paths(&mut self, name: &str, lines: &[u8], verdict: &FillVerdict) {
        let input = open(&written("text", lines));
        let said = self.run(self.reading_paths(&input).command());
        hold_verdict(name, &said, text::of_fill(verdict), &[("text", lines)]);
        hold_read(name, input, lines, MOST_READ);
        self.seen.paths(lines, verdict);
    }

    /// Holds `mark` to the text of a verdict.
    fn mark(&mut self, name: &str, constraints: &[u8], answer: &[u8], verdict: &MarkerVerdict) {
        let said = self.run(self.marking(constraints, answer).command());
        hold_verdict(name, &said, text::of_mark(verdict), &[("constraints", constraints), ("answer", answer)]);
        self.seen.mark(constraints, answer, verdict);
    }
}

/// The verdict is printed as one write, with nothing on standard error and exit status 0.
fn hold_verdict(name: &str, said: &Said, expected: impl AsRef<[u8]>, files: &[(&str, &[u8])]) {
    let files: String = files.iter().map(|(name, bytes)| format!("\n{name} {}", shown(bytes))).collect();
    let (printed, expected) = (said.writes.concat(), expected.as_ref());
    let expected_shown = expected.escape_ascii();
    if printed != expected {
        fail(name, &format!("printed \"{}\"\nexpected \"{expected_shown}\"{files}", printed.escape_ascii()));
    }
    hold_errors(name, said, "");
    if said.writes.len() != 1 {
        fail(name, &format!("\"{expected_shown}\" was printed in {} writes, expected 1{files}", said.writes.len()));
    }
}

/// The program has read its standard input to the end, or as much of it as it reads at most.
fn hold_read(name: &str, mut input: File, bytes: &[u8], most: usize) {
    let read = input.stream_position().expect("a file has a position");
    if read != bytes.len().min(most) as u64 {
        fail(name, &format!("{read} of {} bytes were read", bytes.len()));
    }
}

/// Standard error has just this, and the exit status is 0.
fn hold_errors(name: &str, said: &Said, expected: &str) {
    if said.errors != expected {
        fail(name, &format!("standard error has {:?}\nexpected {expected:?}", said.errors));
    }
    if said.status.code() != Some(0) {
        fail(name, &format!("{}, expected exit status 0", said.status));
    }
}

fn shown(bytes: &[u8]) -> String {
    match bytes.get(..1_100) {
        None => hex(bytes),
        Some(front) => format!("of {} bytes that start with {}", bytes.len(), hex(front)),
    }
}
