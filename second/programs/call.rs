//! A program, its arguments and its standard input.

use crate::{fail, FILES};
use std::fs::File;
use std::process::Command;

pub struct Call {
    program: String,
    arguments: Vec<String>,
    input: File,
}

impl Call {
    pub fn new(program: &str, arguments: &[&str], input: File) -> Call {
        let arguments = arguments.iter().map(|word| word.to_string()).collect();
        Call { program: program.to_string(), arguments, input }
    }

    pub fn command(self) -> Command {
        let mut command = Command::new(self.program);
        command.args(self.arguments).stdin(self.input);
        command
    }

    /// The program in the place of a shell that has first run `script`.
    pub fn after(self, script: &str) -> Command {
        let mut command = Command::new("sh");
        command.args(["-c", &format!("{script}; exec \"$0\" \"$@\""), &self.program]);
        command.args(self.arguments).stdin(self.input);
        command
    }
}

/// A file with these bytes, by its path.
pub fn written(name: &str, bytes: &[u8]) -> String {
    let path = format!("{FILES}/{name}");
    std::fs::write(&path, bytes).unwrap_or_else(|error| fail(&path, &error));
    path
}

pub fn open(path: &str) -> File {
    File::open(path).unwrap_or_else(|error| fail(path, &error))
}

pub fn nothing() -> File {
    open("/dev/null")
}
