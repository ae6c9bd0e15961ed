//! Nothing is lost in silence: where a verdict cannot be printed, or none can be given, standard error has one line that says so and
//! standard output has nothing. The exit status is 0 all the same.

use crate::call::{nothing, open, written, Call};
use crate::limits::{CHILD_0_1, LISTING, NODE_0, PARENT_AND_CHILD};
use crate::paths::{SELF_A, SEVENTEEN_VARIABLES};
use crate::run::Said;
use crate::xml::{as_second, LEAF, NODES_OF_LEAF};
use crate::{fail, hold_errors, text, Trial, ALLOWANCE, FILES};
use second::{LEAST_BUFFER, LEAST_RECORDS_BUFFER};
use std::fs::File;
use std::io::Seek;

/// What standard error has: just this line, or one that names something.
enum Line<'a> {
    Is(&'a str),
    Names(&'a str),
}

/// A verdict to be printed: by which program, and on what. Only `mark` has an answer.
struct Printing {
    program: &'static str,
    file: &'static [u8],
    answer: &'static [u8],
}

impl Printing {
    fn call(&self, trial: &Trial) -> Call {
        match self.program {
            "solve" => trial.solving(&open(&written("constraints", self.file))),
            "paths" => trial.reading_paths(&open(&written("text", self.file))),
            "toxml" | "fromxml" => trial.converting(self.program, &open(&written("input", self.file))),
            _ => trial.marking(self.file, self.answer),
        }
    }

    fn bytes(&self) -> Vec<u8> {
        match self.program {
            "solve" => text::of_solve(&second::solve(self.file, LEAST_BUFFER, ALLOWANCE)).into_bytes(),
            "paths" => text::of_fill(&second::paths(self.file, LEAST_RECORDS_BUFFER)),
            "toxml" | "fromxml" => text::of_fill(&as_second(self.program, self.file)),
            _ => text::of_mark(&second::mark(self.file, self.answer)).into_bytes(),
        }
    }
}

/// Every verdict but spent, which differs from none by a word.
const PRINTINGS: [Printing; 14] = [
    Printing { program: "solve", file: &[], answer: &[] },
    Printing { program: "solve", file: &LISTING, answer: &[] },
    Printing { program: "solve", file: &[1, 0, 0, 0], answer: &[] },
    Printing { program: "solve", file: &[0], answer: &[] },
    Printing { program: "mark", file: &CHILD_0_1, answer: &PARENT_AND_CHILD },
    Printing { program: "mark", file: &[6, 1, 0, 0], answer: &PARENT_AND_CHILD },
    Printing { program: "mark", file: &CHILD_0_1, answer: &NODE_0 },
    Printing { program: "paths", file: SELF_A, answer: &[] },
    Printing { program: "paths", file: b"", answer: &[] },
    Printing { program: "paths", file: SEVENTEEN_VARIABLES, answer: &[] },
    Printing { program: "toxml", file: &NODES_OF_LEAF, answer: &[] },
    Printing { program: "toxml", file: &NODE_0, answer: &[] },
    Printing { program: "fromxml", file: LEAF, answer: &[] },
    Printing { program: "fromxml", file: b"", answer: &[] },
];

impl Trial {
    pub fn lost(&mut self) {
        for printing in &PRINTINGS {
            self.output_full(printing);
            self.output_closed(printing);
            self.output_cut_short(printing);
        }
        let [solve, paths, toxml, fromxml] = [&self.solve, &self.paths, &self.toxml, &self.fromxml].map(String::clone);
        self.usage_of_reader("solve", &solve, &written("constraints", &LISTING), "usage: solve < CONSTRAINTS");
        self.usage_of_reader("paths", &paths, &written("text", SELF_A), "usage: paths < TEXT");
        self.usage_of_reader("toxml", &toxml, &written("nodes", &NODES_OF_LEAF), "usage: toxml < NODES");
        self.usage_of_reader("fromxml", &fromxml, &written("xml", LEAF), "usage: fromxml < TEXT");
        self.usage_of_mark();
        self.no_input();
        self.no_file();
    }

    fn output_full(&mut self, printing: &Printing) {
        const SORT: &str = "standard output is a full device";
        let full = File::options().write(true).open("/dev/full").unwrap_or_else(|error| fail("/dev/full", &error));
        let said = self.run_into(full, printing.call(self).command());
        self.hold_lost(printing.program, SORT, &said, Line::Is("standard output: No space left on device"));
    }

    fn output_closed(&mut self, printing: &Printing) {
        const SORT: &str = "standard output is closed";
        let said = self.run(printing.call(self).after("exec >&-"));
        self.hold_lost(printing.program, SORT, &said, Line::Is("standard output: Bad file descriptor"));
    }

    /// A file that has room for three bytes more (a block of `ulimit -f` is 512 bytes, the signal at its end is ignored).
    fn output_cut_short(&mut self, printing: &Printing) {
        const SORT: &str = "standard output has room for three bytes";
        let path = written("output", &[b'.'; 509]);
        let output = File::options().append(true).open(&path).unwrap_or_else(|error| fail(&path, &error));
        let said = self.run_into(output, printing.call(self).after("trap '' XFSZ; ulimit -f 1"));
        self.hold_lost(printing.program, SORT, &said, Line::Names("standard output"));
        let put = std::fs::read(&path).unwrap_or_else(|error| fail(&path, &error))[509..].to_vec();
        if put != printing.bytes()[..3] {
            fail(SORT, &format!("{:?} was put", String::from_utf8_lossy(&put)));
        }
    }

    /// Of a program that reads its standard input, which lies at `path`.
    fn usage_of_reader(&mut self, name: &str, program: &str, path: &str, line: &str) {
        for words in [&[path][..], &["--help"], &["-"], &[""], &[path, path]] {
            let mut input = open(path);
            let said = self.run(Call::new(program, words, input.try_clone().expect("an open file is lent")).command());
            self.hold_lost(name, "usage", &said, Line::Is(line));
            if input.stream_position().expect("a file has a position") != 0 {
                fail("usage", &format!("{name} with an argument has read its standard input"));
            }
        }
    }

    fn usage_of_mark(&mut self) {
        let (constraints, answer) = (&written("constraints", &CHILD_0_1), &written("answer", &PARENT_AND_CHILD));
        for words in [&[][..], &[constraints.as_str()], &["--help"], &[constraints, answer, answer]] {
            let said = self.run(Call::new(&self.mark, words, nothing()).command());
            self.hold_lost("mark", "usage", &said, Line::Is("usage: mark CONSTRAINTS ANSWER"));
        }
    }

    fn no_input(&mut self) {
        let readers: [(&str, fn(&Trial, &File) -> Call); 4] = [
            ("solve", Trial::solving),
            ("paths", Trial::reading_paths),
            ("toxml", |trial, input| trial.converting("toxml", input)),
            ("fromxml", |trial, input| trial.converting("fromxml", input)),
        ];
        for (program, reading) in readers {
            let said = self.run(reading(self, &open(FILES)).command());
            self.hold_lost(program, "standard input is a folder", &said, Line::Names("standard input"));
            let said = self.run(reading(self, &nothing()).after("exec <&-"));
            self.hold_lost(program, "standard input is closed", &said, Line::Names("standard input"));
        }
    }

    fn no_file(&mut self) {
        let (constraints, answer) = (&written("constraints", &CHILD_0_1), &written("answer", &PARENT_AND_CHILD));
        let absent = &format!("{FILES}/absent");
        for (sort, path) in [("a file that is not there", absent.as_str()), ("a folder", FILES)] {
            for words in [[path, answer], [constraints, path]] {
                let said = self.run(Call::new(&self.mark, &words, nothing()).command());
                self.hold_lost("mark", sort, &said, Line::Names(path));
            }
        }
    }

    fn hold_lost(&mut self, program: &str, sort: &str, said: &Said, expected: Line) {
        let name = format!("{program}: {sort}");
        if !said.writes.is_empty() {
            fail(&name, &format!("standard output has {:?}, expected nothing", said.text()));
        }
        match expected {
            Line::Is(line) => hold_errors(&name, said, &format!("{line}\n")),
            Line::Names(what) => {
                let is_one_line = said.errors.ends_with('\n') && said.errors.lines().count() == 1;
                if !is_one_line || !said.errors.contains(what) {
                    fail(&name, &format!("standard error has {:?}\nexpected one line that names {what}", said.errors));
                }
                hold_errors(&name, said, &said.errors);
            }
        }
        self.seen.note(name);
    }
}
