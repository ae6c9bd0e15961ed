//! A text of paths read byte by byte ("Paths" in docs/FORMAT.md): after each byte, the shortest text of paths that goes on from there, and how
//! few variables one needs. So the first byte is found that no text of the form has there, for question 13, or none that 16 variables are enough
//! for, for question 14. The second reader takes a text apart from outside to inside; it is only asked whether what is found here fits.

use second::path::{self, AXES, MOST_BYTES, MOST_LINES};
use second::translate::{translate, MOST_VARIABLES};

/// What the last byte has ended.
#[derive(Clone, Copy, PartialEq, Eq, Debug)]
enum After {
    /// Nothing, a line or `[`: a path begins.
    Opening,
    /// The `/` that a path begins with.
    Root,
    /// A `/` between two steps.
    Slash,
    /// So many bytes of this name of an axis, which is the shortest that begins with them.
    Axis(&'static str, usize),
    Colon,
    Colons,
    /// A test or `]`.
    Step,
}

#[derive(Clone, Debug)]
struct Machine {
    after: After,
    /// Brackets that are open.
    depth: usize,
    lines: usize,
    /// Variable 0 is counted, and so are a step that must still come and `[`'s path, as far as they need a variable for certain.
    variables: usize,
    has_root: bool,
}

impl Machine {
    fn new() -> Machine {
        Machine { after: After::Opening, depth: 0, lines: 0, variables: 1, has_root: false }
    }

    /// Goes on by a byte, if the grammar has it here.
    fn step(&mut self, byte: u8) -> Option<()> {
        self.after = match (self.after, byte) {
            (After::Opening, _) if self.lines == MOST_LINES => return None,
            (After::Opening, b'/') => {
                self.open_root();
                After::Root
            }
            (After::Opening, _) => {
                let axis = axis_from(&[byte])?;
                // A line's start takes a number; in brackets the step does.
                self.variables += 1;
                axis
            }
            (After::Root, b'\n' | b']') => self.end(byte)?,
            (After::Root, _) => {
                let axis = axis_from(&[byte])?;
                self.variables += usize::from(self.depth > 0);
                axis
            }
            (After::Slash, _) => axis_from(&[byte])?,
            (After::Axis(name, length), b':') if axis_is(&name[..length]) => After::Colon,
            (After::Axis(name, length), _) => axis_from(&[&name.as_bytes()[..length], &[byte]].concat())?,
            (After::Colon, b':') => After::Colons,
            (After::Colons, b'a'..=b'z' | b'A'..=b'Z' | b'*') => After::Step,
            (After::Step, b'/') => {
                // Outside brackets the step before is not the last one, inside another one must come: either takes a number.
                self.variables += 1;
                After::Slash
            }
            (After::Step, b'[') => {
                self.depth += 1;
                After::Opening
            }
            (After::Step, b'\n' | b']') => self.end(byte)?,
            _ => return None,
        };
        Some(())
    }

    fn open_root(&mut self) {
        if !self.has_root {
            self.variables += 1;
            self.has_root = true;
        }
    }

    /// A path ends, outside brackets with its line.
    fn end(&mut self, byte: u8) -> Option<After> {
        match (byte, self.depth) {
            (b'\n', 0) => {
                self.lines += 1;
                Some(After::Opening)
            }
            (b']', 1..) => {
                self.depth -= 1;
                Some(After::Step)
            }
            _ => None,
        }
    }

    /// The least that must still come. It takes no variable that is not needed: `/` is the shortest path, and takes at most one.
    fn completion(&self) -> String {
        let step = match self.after {
            After::Opening if self.depth == 0 && self.lines > 0 => return String::new(),
            After::Opening => "/",
            After::Root | After::Step => "",
            After::Slash => "self::*",
            After::Axis(name, length) => &format!("{}::*", &name[length..]),
            After::Colon => ":*",
            After::Colons => "*",
        };
        format!("{step}{}\n", "]".repeat(self.depth))
    }

    /// How many variables every text has that goes on from here. A path must come in `[` and where there is no line yet: it takes a number
    /// unless it can be `/` and there is a root.
    fn needed(&self) -> usize {
        let must_open = self.after == After::Opening && (self.depth > 0 || self.lines == 0);
        self.variables + usize::from(must_open && !self.has_root)
    }
}

/// The shortest axis that begins with these bytes.
fn axis_from(bytes: &[u8]) -> Option<After> {
    let fitting = AXES.into_iter().map(|(_, name)| name).filter(|name| name.as_bytes().starts_with(bytes));
    fitting.min_by_key(|name| name.len()).map(|name| After::Axis(name, bytes.len()))
}

fn axis_is(word: &str) -> bool {
    AXES.iter().any(|(_, name)| *name == word)
}

/// Of a text that 13 refuses: the first byte that no text of paths has there, or the end, where one lacks; and a name for why.
pub fn no_form(text: &[u8]) -> (usize, &'static str) {
    let mut machine = Machine::new();
    for (at, &byte) in text.iter().enumerate() {
        let before = machine.clone();
        let why = match machine.step(byte) {
            None if before.lines == MOST_LINES => "for its lines",
            None => "for its form",
            Some(()) if at + 1 + machine.completion().len() > MOST_BYTES => "for its bytes",
            Some(()) => continue,
        };
        hold_to_second(&before, &text[..at]);
        return (at, why);
    }
    hold_to_second(&machine, text);
    (text.len(), "at the end")
}

/// Of a text of paths: the first byte behind which 16 variables are not enough.
pub fn too_many_variables(text: &[u8]) -> usize {
    let mut machine = Machine::new();
    for (at, &byte) in text.iter().enumerate() {
        let before = machine.clone();
        machine.step(byte).expect("a text of paths");
        if machine.needed() > MOST_VARIABLES {
            hold_to_second(&before, &text[..at]);
            hold_to_second(&machine, &text[..=at]);
            return at;
        }
    }
    panic!("16 variables are enough for {}", text.escape_ascii())
}

/// The beginning and its completion are a text of paths for the second reader too, with as many variables.
fn hold_to_second(machine: &Machine, beginning: &[u8]) {
    let text = [beginning, machine.completion().as_bytes()].concat();
    let variables = path::read(&text).map(|lines| translate(&lines).variables);
    assert_eq!(variables, Some(machine.needed()), "{}", text.escape_ascii());
}

/// Does the machine take the text for one of paths? To be held to the second reader.
pub fn is_of_form(text: &[u8]) -> bool {
    let mut machine = Machine::new();
    let ended = text.len() <= MOST_BYTES && text.iter().all(|&byte| machine.step(byte).is_some());
    ended && machine.completion().is_empty()
}
