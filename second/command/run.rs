//! One run of the command, in the folder of the files that it is given, and what it is held to.

use crate::says::Expected;
use crate::{fail, Trial};
use std::io::Write;
use std::process::{Child, Command, Stdio};

/// How a command is given its file: the words of the call, and the name that it has for the file.
pub struct Given {
    pub words: Vec<String>,
    pub name: String,
}

/// Where the files lie that the command is given, and where it is run.
pub const FILES: &str = "target/second/command-files";

pub struct Said {
    pub output: Vec<u8>,
    pub errors: Vec<u8>,
    /// Nothing if a signal has ended it.
    pub status: Option<i32>,
}

pub fn empty_folder() {
    if std::fs::exists(FILES).unwrap_or_else(|error| fail(FILES, &error)) {
        std::fs::remove_dir_all(FILES).unwrap_or_else(|error| fail(FILES, &error));
    }
    std::fs::create_dir_all(FILES).unwrap_or_else(|error| fail(FILES, &error));
}

/// A file with these bytes.
pub fn write(name: &str, bytes: &[u8]) {
    let path = format!("{FILES}/{name}");
    std::fs::write(&path, bytes).unwrap_or_else(|error| fail(&path, &error));
}

impl Trial {
    /// With this standard input, through a pipe. What is printed before all of it is read fits into a pipe.
    pub fn run_on(&mut self, words: &[&str], input: &[u8]) -> Said {
        let mut child = self.spawn(words, Stdio::piped());
        let mut pipe = child.stdin.take().expect("a pipe is made");
        // A command may end before it has read all.
        let _ = pipe.write_all(input);
        drop(pipe);
        self.wait(child)
    }

    /// With nothing on standard input.
    pub fn run(&mut self, words: &[&str]) -> Said {
        let child = self.spawn(words, Stdio::null());
        self.wait(child)
    }

    fn spawn(&self, words: &[&str], input: Stdio) -> Child {
        let mut command = Command::new(&self.program);
        command.args(words).current_dir(FILES).stdin(input).stdout(Stdio::piped()).stderr(Stdio::piped());
        command.spawn().unwrap_or_else(|error| fail(&self.program.display().to_string(), &error))
    }

    fn wait(&mut self, child: Child) -> Said {
        self.runs += 1;
        let said = child.wait_with_output().expect("a child is waited for");
        Said { output: said.stdout, errors: said.stderr, status: said.status.code() }
    }

    /// "Options may stand before or behind the names; `--` ends them. Without FILE it is standard input."
    pub fn given(&mut self, command: &str, options: &[String]) -> Given {
        let (sort, name, names) = match self.random.below(12) {
            0 => ("from standard input", "-", vec![]),
            1 => ("from -", "-", vec!["-"]),
            2 => ("-- before the name", "-file", vec!["--", "-file"]),
            3 => ("a name with control characters", "a\tfi\nle", vec!["a\tfi\nle"]),
            4..=7 if !options.is_empty() => ("options behind the name", "file", vec!["file"]),
            _ => ("a file", "file", vec!["file"]),
        };
        self.seen.note(format!("{command}: {sort}"));
        let names: Vec<String> = names.into_iter().map(String::from).collect();
        let (first, then) =
            if sort == "options behind the name" { (&names[..], options) } else { (options, &names[..]) };
        Given { words: [&[command.to_string()], first, then].concat(), name: name.to_string() }
    }

    /// Runs the command on this file, and holds it to what is expected.
    pub fn hold_given(&mut self, name: &str, given: &Given, file: &[u8], expected: &Expected) {
        let words: Vec<&str> = given.words.iter().map(String::as_str).collect();
        let said = if given.name == "-" {
            self.run_on(&words, file)
        } else {
            write(&given.name, file);
            self.run(&words)
        };
        hold(name, &words, &said, expected, &[file]);
    }
}

/// Holds a run to what is expected; `files` are shown if it differs.
pub fn hold(name: &str, words: &[&str], said: &Said, expected: &Expected, files: &[&[u8]]) {
    let wrong = if said.output != expected.output {
        format!("printed  \"{}\"\nexpected \"{}\"", shown(&said.output), shown(&expected.output))
    } else if said.errors != expected.errors {
        format!("standard error has \"{}\"\nexpected           \"{}\"", shown(&said.errors), shown(&expected.errors))
    } else if said.status != Some(expected.status) {
        format!("exit status {:?}, expected {}", said.status, expected.status)
    } else {
        return;
    };
    let files: String = files.iter().map(|file| format!("\nfile \"{}\"", shown(file))).collect();
    fail(name, &format!("cudreth {}\n{wrong}{files}", words.join(" ").escape_debug()));
}

pub fn shown(bytes: &[u8]) -> String {
    match bytes.get(..2_000) {
        None => bytes.escape_ascii().to_string(),
        Some(front) => format!("{} and so on, {} bytes", front.escape_ascii(), bytes.len()),
    }
}
