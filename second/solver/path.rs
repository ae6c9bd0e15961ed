//! Questions set as paths (document 02, requests (i), (iii) and (vi)): the syntax of a text, its reader and its printer. The reader takes a text
//! apart from outside to inside: lines, then steps at the `/` outside brackets, then the brackets of a step.

use std::fmt;

pub const MOST_BYTES: usize = 1024;
pub const MOST_LINES: usize = 8;

/// An optional `/` and steps parted by `/`, or `/` alone: the one path without a step.
#[derive(Clone, PartialEq, Eq, Debug)]
pub struct Path {
    pub from_root: bool,
    pub steps: Vec<Step>,
}

#[derive(Clone, PartialEq, Eq, Debug)]
pub struct Step {
    pub axis: Axis,
    pub test: Test,
    pub brackets: Vec<Path>,
}

#[derive(Clone, Copy, PartialEq, Eq, Debug)]
pub enum Axis {
    Itself,
    Child,
    Parent,
    Descendant,
    Ancestor,
    DescendantOrSelf,
    AncestorOrSelf,
    FollowingSibling,
    PrecedingSibling,
}

#[derive(Clone, Copy, PartialEq, Eq, Debug)]
pub enum Test {
    /// The byte that stands in the text, a capital or a small letter.
    Letter(u8),
    Any,
}

pub const AXES: [(Axis, &str); 9] = [
    (Axis::Itself, "self"),
    (Axis::Child, "child"),
    (Axis::Parent, "parent"),
    (Axis::Descendant, "descendant"),
    (Axis::Ancestor, "ancestor"),
    (Axis::DescendantOrSelf, "descendant-or-self"),
    (Axis::AncestorOrSelf, "ancestor-or-self"),
    (Axis::FollowingSibling, "following-sibling"),
    (Axis::PrecedingSibling, "preceding-sibling"),
];

impl Axis {
    pub fn name(self) -> &'static str {
        AXES.iter().find(|(axis, _)| *axis == self).expect("every axis has a name").1
    }
}

/// The lines of a text, or nothing if it is not of the form that request (i) describes.
pub fn read(text: &[u8]) -> Option<Vec<Path>> {
    if text.len() > MOST_BYTES {
        return None;
    }
    // Each line is ended by byte 10, the last one too.
    let lines: Vec<&[u8]> = text.strip_suffix(b"\n")?.split(|&byte| byte == b'\n').collect();
    if lines.len() > MOST_LINES {
        return None;
    }
    lines.into_iter().map(read_path).collect()
}

fn read_path(text: &[u8]) -> Option<Path> {
    if text == b"/" {
        return Some(Path { from_root: true, steps: Vec::new() });
    }
    let after_slash = text.strip_prefix(b"/");
    let steps =
        parted_outside_brackets(after_slash.unwrap_or(text)).into_iter().map(read_step).collect::<Option<_>>()?;
    Some(Path { from_root: after_slash.is_some(), steps })
}

/// The parts between the `/` that stand in no bracket; at least one, which may be empty.
fn parted_outside_brackets(text: &[u8]) -> Vec<&[u8]> {
    let mut depth = 0;
    text.split(|&byte| {
        match byte {
            b'[' => depth += 1,
            b']' => depth -= 1,
            _ => {}
        }
        byte == b'/' && depth == 0
    })
    .collect()
}

fn read_step(text: &[u8]) -> Option<Step> {
    let head = text.iter().position(|&byte| byte == b'[').unwrap_or(text.len());
    let (head, mut tail) = text.split_at(head);
    let (axis, test) = read_head(head)?;
    let mut brackets = Vec::new();
    while !tail.is_empty() {
        let (inside, after) = first_bracket(tail)?;
        brackets.push(read_path(inside)?);
        tail = after;
    }
    Some(Step { axis, test, brackets })
}

/// An axis name, `::` and a test.
fn read_head(head: &[u8]) -> Option<(Axis, Test)> {
    let colons = head.windows(2).position(|pair| pair == b"::")?;
    let (axis, _) = AXES.into_iter().find(|(_, name)| name.as_bytes() == &head[..colons])?;
    let test = match head[colons + 2..] {
        [letter @ (b'a'..=b'z' | b'A'..=b'Z')] => Test::Letter(letter),
        [b'*'] => Test::Any,
        _ => return None,
    };
    Some((axis, test))
}

/// What stands inside the bracket that the text starts with, and what comes after it.
fn first_bracket(text: &[u8]) -> Option<(&[u8], &[u8])> {
    let mut depth = 0;
    for (at, byte) in text.iter().enumerate() {
        match byte {
            b'[' => depth += 1,
            b']' => depth -= 1,
            _ => {}
        }
        if depth == 0 {
            return (at > 0).then(|| (&text[1..at], &text[at + 1..]));
        }
    }
    None
}

impl fmt::Display for Path {
    fn fmt(&self, f: &mut fmt::Formatter) -> fmt::Result {
        let steps: Vec<String> = self.steps.iter().map(Step::to_string).collect();
        write!(f, "{}{}", if self.from_root { "/" } else { "" }, steps.join("/"))
    }
}

impl fmt::Display for Step {
    fn fmt(&self, f: &mut fmt::Formatter) -> fmt::Result {
        let test = match self.test {
            Test::Letter(letter) => letter as char,
            Test::Any => '*',
        };
        write!(f, "{}::{test}", self.axis.name())?;
        self.brackets.iter().try_for_each(|path| write!(f, "[{path}]"))
    }
}

/// The text of which `read` makes these lines.
pub fn text_of(lines: &[Path]) -> Vec<u8> {
    lines.iter().flat_map(|line| format!("{line}\n").into_bytes()).collect()
}
