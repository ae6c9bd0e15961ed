//! One run of a program: what each of its write calls put on standard output, what it said on standard error, and how it ended.

use std::fs::File;
use std::io::{Read, Write};
use std::os::fd::{FromRawFd, OwnedFd};
use std::process::{Command, ExitStatus, Stdio};
use std::time::Duration;

pub struct Said {
    /// The bytes of each write call to standard output, in order.
    pub writes: Vec<Vec<u8>>,
    pub errors: String,
    pub status: ExitStatus,
}

impl Said {
    pub fn text(&self) -> String {
        String::from_utf8_lossy(&self.writes.concat()).into_owned()
    }
}

/// Runs the command with its write calls kept apart.
pub fn run(mut command: Command) -> Said {
    let (mut reader, writer) = packets();
    command.stdout(writer);
    let child =
        command.stderr(Stdio::piped()).spawn().unwrap_or_else(|error| crate::fail(&format!("{command:?}"), &error));
    // The command holds a write end too; while one is open, the reads go on.
    drop(command);
    let mut writes = Vec::new();
    let mut packet = [0; 4096];
    loop {
        match reader.read(&mut packet).expect("a pipe is read") {
            0 => break,
            length => writes.push(packet[..length].to_vec()),
        }
    }
    let output = child.wait_with_output().expect("a child is waited for");
    Said { writes, errors: String::from_utf8_lossy(&output.stderr).into_owned(), status: output.status }
}

/// Runs the command with its standard output where it cannot be seen here.
pub fn run_into(stdout: impl Into<Stdio>, mut command: Command) -> Said {
    let output = command.stdout(stdout).output().unwrap_or_else(|error| crate::fail(&format!("{command:?}"), &error));
    Said { writes: Vec::new(), errors: String::from_utf8_lossy(&output.stderr).into_owned(), status: output.status }
}

/// A standard input that comes through a pipe, so many bytes at a time. A reader may leave before the end.
pub fn in_pieces(bytes: &[u8], length: usize) -> File {
    let (reader, mut writer) = std::io::pipe().expect("a pipe is made");
    let pieces: Vec<Vec<u8>> = bytes.chunks(length).map(<[u8]>::to_vec).collect();
    std::thread::spawn(move || {
        pieces.iter().try_for_each(|piece| {
            std::thread::sleep(Duration::from_micros(10));
            writer.write_all(piece)
        })
    });
    File::from(OwnedFd::from(reader))
}

/// A pipe in which each write of up to 4,096 bytes stays apart: one read gives the bytes of one write (pipe(2), O_DIRECT).
fn packets() -> (File, File) {
    extern "C" {
        fn pipe2(ends: *mut i32, flags: i32) -> i32;
    }
    const O_DIRECT: i32 = 0o40_000;
    const O_CLOEXEC: i32 = 0o2_000_000;
    let mut ends = [0; 2];
    let made = unsafe { pipe2(ends.as_mut_ptr(), O_DIRECT | O_CLOEXEC) };
    assert_eq!(made, 0, "a pipe is made");
    let [reader, writer] = ends.map(|end| File::from(unsafe { OwnedFd::from_raw_fd(end) }));
    (reader, writer)
}
