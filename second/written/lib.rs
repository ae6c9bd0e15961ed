//! Questions with a written result: the stored ones, which the second solver made, and the examples, which were worked out by hand.

mod example;
mod session;

pub use example::questions as examples;
use second::centres::Centre;
use second::verdict::{parse_marker, parse_solver, unhex, DrawVerdict, FillVerdict, MarkerVerdict, SolverVerdict};

pub struct Question {
    pub name: String,
    /// The constraint file, the text of paths, the node records or the text of XML; a draw has none.
    pub file: Vec<u8>,
    pub expected: Expected,
}

pub enum Expected {
    Solver { buffer: usize, allowance: u32, verdict: SolverVerdict },
    Marker { answer: Vec<u8>, verdict: MarkerVerdict },
    Paths { buffer: usize, verdict: FillVerdict },
    XmlWriter { buffer: usize, verdict: FillVerdict },
    XmlReader { buffer: usize, verdict: FillVerdict },
    Draw { centres: Vec<Centre>, total: u32, centre: usize, amount: u32, verdict: DrawVerdict },
}

/// Every stored question and every example, with the path of its file in front of its name. From the root of the repository.
pub fn all() -> Result<Vec<(String, Question)>, String> {
    let folders: [(&str, fn(&str) -> Result<Vec<Question>, String>); 2] = [("stored", stored), ("examples", examples)];
    let mut all = Vec::new();
    for (folder, read) in folders {
        for path in text_files(folder)? {
            let text = std::fs::read_to_string(&path).map_err(|error| format!("{path}: {error}"))?;
            let questions = read(&text).map_err(|error| format!("{path}: {error}"))?;
            all.extend(questions.into_iter().map(|question| (format!("{path}: {}", question.name), question)));
        }
    }
    Ok(all)
}

fn text_files(folder: &str) -> Result<Vec<String>, String> {
    let entries = std::fs::read_dir(folder).map_err(|error| format!("{folder}: {error}"))?;
    let paths = entries.map(|entry| entry.expect("a folder is listed").path().display().to_string());
    let mut paths: Vec<String> = paths.filter(|path| path.ends_with(".txt")).collect();
    paths.sort();
    Ok(paths)
}

/// One question a line: its name, `solve`, constraints, buffer, allowance, verdict; or its name, `mark`, constraints, answer, verdict.
pub fn stored(text: &str) -> Result<Vec<Question>, String> {
    let lines = text.lines().filter(|line| !line.is_empty() && !line.starts_with('#'));
    lines.map(|line| stored_question(line).ok_or_else(|| format!("not a stored question: {line}"))).collect()
}

pub fn stored_question(line: &str) -> Option<Question> {
    let words: Vec<&str> = line.split_whitespace().collect();
    let (name, constraints, expected) = match words.as_slice() {
        [name, "solve", constraints, buffer, allowance, verdict @ ..] => {
            let verdict = parse_solver(verdict)?;
            (
                name,
                constraints,
                Expected::Solver { buffer: buffer.parse().ok()?, allowance: allowance.parse().ok()?, verdict },
            )
        }
        [name, "mark", constraints, answer, verdict @ ..] => {
            (name, constraints, Expected::Marker { answer: unhex(answer)?, verdict: parse_marker(verdict)? })
        }
        _ => return None,
    };
    Some(Question { name: name.to_string(), file: unhex(constraints)?, expected })
}
