//! Holds the second side and the archive to the stored questions and to the examples. After a change of the rules, `again` prints a
//! stored file with the verdicts that the second solver now gives: its diff with the file lists the stored answers that change.
//!
//! `before` prints a stored file as it was before request iii, v, vi or ix, and fails if more than that request asks has changed since; `changes`
//! prints what the request changed.
//!
//! usage: check stored FILE... | check examples FILE... | check again FILE | check before|changes REQUEST LINES FILE

mod before;
mod changes;

use before::{Request, REQUESTS};
use second::verdict::hex;
use std::fmt::Display;
use written::{Expected, Question};

fn main() {
    let words: Vec<String> = std::env::args().skip(1).collect();
    match words.iter().map(String::as_str).collect::<Vec<_>>().as_slice() {
        ["stored", files @ ..] => hold_files(files, written::stored),
        ["examples", files @ ..] => hold_files(files, written::examples),
        ["again", file] => print_again(file),
        ["before", request, lines, file] => before::print(request_named(request), lines, file),
        ["changes", request, lines, file] => {
            let request = request_named(request);
            (request.changes)(request, lines, file);
        }
        _ => usage(),
    }
}

fn usage() -> ! {
    eprintln!(
        "usage: check stored FILE... | check examples FILE... | check again FILE | check before|changes REQUEST LINES FILE"
    );
    std::process::exit(2);
}

fn request_named(name: &str) -> &'static Request {
    REQUESTS.iter().find(|(request, _)| *request == name).map_or_else(|| usage(), |(_, request)| request)
}

fn hold_files(files: &[&str], read: fn(&str) -> Result<Vec<Question>, String>) {
    let mut held = 0;
    for path in files {
        let questions = read(&text_of(path)).unwrap_or_else(|error| fail(path, &error));
        for question in &questions {
            if let Err(how) = hold(question) {
                fail(path, &format!("{}: {how}", question.name));
            }
        }
        held += questions.len();
    }
    println!(
        "check: {held} questions of {} files: the second side and the archive both give what is written",
        files.len()
    );
}

fn print_again(path: &str) {
    for line in text_of(path).lines() {
        let Some(Question { name, file: constraints, expected }) = written::stored_question(line) else {
            println!("{line}");
            continue;
        };
        let file = hex(&constraints);
        match expected {
            Expected::Solver { buffer, allowance, .. } => {
                let verdict = second::solve(&constraints, buffer, allowance);
                println!("{name} solve {file} {buffer} {allowance} {verdict}");
            }
            Expected::Marker { answer, .. } => {
                println!("{name} mark {file} {} {}", hex(&answer), second::mark(&constraints, &answer));
            }
            // No stored question is set as paths, is of XML or is a draw.
            Expected::Paths { .. }
            | Expected::XmlWriter { .. }
            | Expected::XmlReader { .. }
            | Expected::Draw { .. } => println!("{line}"),
        }
    }
}

fn text_of(path: &str) -> String {
    std::fs::read_to_string(path).unwrap_or_else(|error| fail(path, &error.to_string()))
}

fn fail(path: &str, how: &str) -> ! {
    eprintln!("{path}: {how}");
    std::process::exit(1);
}

/// What is written is what the second side says, and what the archive does.
fn hold(question: &Question) -> Result<(), String> {
    let file = &question.file;
    let held = match &question.expected {
        Expected::Solver { buffer, allowance, verdict } => {
            hold_said("solver", verdict, second::solve(file, *buffer, *allowance))?;
            archive::hold_solver(file, *buffer, *allowance, verdict)
        }
        Expected::Marker { answer, verdict } => {
            hold_said("marker", verdict, second::mark(file, answer))?;
            archive::hold_marker(file, answer, verdict)
        }
        Expected::Paths { buffer, verdict } => {
            hold_said("reader of paths", verdict, second::paths(file, *buffer))?;
            archive::hold_paths(file, *buffer, verdict)
        }
        Expected::XmlWriter { buffer, verdict } => {
            hold_said("writer of XML", verdict, second::xml_write(file, *buffer))?;
            archive::hold_xml_write(file, *buffer, verdict)
        }
        Expected::XmlReader { buffer, verdict } => {
            hold_said("reader of XML", verdict, second::xml_read(file, *buffer))?;
            archive::hold_xml_read(file, *buffer, verdict)
        }
        Expected::Draw { centres, total, centre, amount, verdict } => {
            hold_said("account of a draw", verdict, second::draw(centres, *total, *centre, *amount))?;
            archive::hold_draw(centres, *total, *centre, *amount, verdict)
        }
    };
    held.map_err(|disagreement| disagreement.0)
}

/// The second side is asked first, so that an example that is wrong is not put down to the archive.
fn hold_said<V: PartialEq + Display>(who: &str, verdict: &V, said: V) -> Result<(), String> {
    if said != *verdict {
        return Err(format!("written {verdict}, the second {who} says {said}"));
    }
    Ok(())
}
