//! Seeded texts of paths: right ones as syntax, and damage to their bytes.

use crate::{damaged_bytes, Random};
use second::path::{Axis, Path, Step, Test, AXES};
use second::translate::translate;

/// What a text leans to.
pub struct PathMix {
    axes: Vec<Axis>,
    tests: Vec<Test>,
    /// A path starts with `/` once in so many times, and a step has one bracket more.
    one_root_in: usize,
    one_bracket_in: usize,
}

impl PathMix {
    pub fn random(random: &mut Random) -> PathMix {
        let mut axes = Vec::new();
        for (axis, _) in AXES {
            axes.extend([axis].repeat(random.pick(&[0, 1, 1, 3])));
        }
        if axes.is_empty() {
            axes.extend(AXES.map(|(axis, _)| axis));
        }
        let mut tests = vec![Test::Any; random.pick(&[1, 1, 3])];
        let letters = random.pick(&[&b"a"[..], b"ab", b"az", b"abz", b"aA", b"aAB", b"AZz", b""]);
        tests.extend(letters.iter().map(|&letter| Test::Letter(letter)));
        PathMix { axes, tests, one_root_in: random.pick(&[2, 4, 9]), one_bracket_in: random.pick(&[2, 3, 6, 99]) }
    }
}

/// So many lines, with about so many steps in all.
pub fn random_lines(random: &mut Random, lines: usize, steps: usize, mix: &PathMix) -> Vec<Path> {
    let mut left = steps.saturating_sub(lines);
    (0..lines).map(|_| random_path(random, &mut left, mix)).collect()
}

fn random_path(random: &mut Random, left: &mut usize, mix: &PathMix) -> Path {
    let from_root = random.one_in(mix.one_root_in);
    let mut steps = Vec::new();
    // `/` alone is a path too.
    if !(from_root && random.one_in(4)) {
        steps.push(random_step(random, left, mix));
        while *left > 0 && random.one_in(2) {
            *left -= 1;
            steps.push(random_step(random, left, mix));
        }
    }
    Path { from_root, steps }
}

fn random_step(random: &mut Random, left: &mut usize, mix: &PathMix) -> Step {
    let mut step = Step { axis: random.pick(&mix.axes), test: random.pick(&mix.tests), brackets: Vec::new() };
    while *left > 0 && random.one_in(mix.one_bracket_in) {
        *left -= 1;
        step.brackets.push(random_path(random, left, mix));
    }
    step
}

/// A step somewhere in the path, or nothing if it is `/` alone.
fn some_step<'a>(random: &mut Random, path: &'a mut Path) -> Option<&'a mut Step> {
    if path.steps.is_empty() {
        return None;
    }
    let at = random.below(path.steps.len());
    let step = &mut path.steps[at];
    let inner = step.brackets.iter().position(|path| !path.steps.is_empty());
    match inner {
        Some(at) if random.one_in(2) => some_step(random, &mut step.brackets[at]),
        _ => Some(step),
    }
}

/// Behind some step of some line, of which one must have a step.
fn add_bracket(random: &mut Random, lines: &mut [Path], path: Path) {
    loop {
        let at = random.below(lines.len());
        if let Some(step) = some_step(random, &mut lines[at]) {
            let at = random.below(step.brackets.len() + 1);
            return step.brackets.insert(at, path);
        }
    }
}

fn has_a_step(lines: &[Path]) -> bool {
    lines.iter().any(|line| !line.steps.is_empty())
}

/// Brackets with one step each are added until the text needs this many variables, or more if it already does.
pub fn pad_to_variables(random: &mut Random, lines: &mut [Path], variables: usize, mix: &PathMix) {
    while has_a_step(lines) && translate(lines).variables < variables {
        let from_root = random.one_in(mix.one_root_in) && translate(lines).variables + 1 < variables;
        let path = Path { from_root, steps: vec![random_step(random, &mut 0, mix)] };
        add_bracket(random, lines, path);
    }
}

/// Brackets `[/]` of 3 bytes are added until the text has this many bytes; an axis is changed so that it comes out even.
pub fn pad_to_bytes(random: &mut Random, lines: &mut [Path], bytes: usize) {
    let length = |lines: &[Path]| second::path::text_of(lines).len();
    if !has_a_step(lines) || length(lines) + 3 > bytes {
        return;
    }
    // Their names have 4, 5 and 6 letters.
    for axis in [Axis::Itself, Axis::Child, Axis::Parent] {
        if (bytes - length(lines).min(bytes)) % 3 != 0 {
            let line = lines.iter_mut().find(|line| !line.steps.is_empty()).expect("a line has a step");
            line.steps[0].axis = axis;
        }
    }
    for _ in 0..bytes.saturating_sub(length(lines)) / 3 {
        add_bracket(random, lines, Path { from_root: true, steps: Vec::new() });
    }
}

/// Brackets in brackets, so deep.
pub fn nested(random: &mut Random, depth: usize, mix: &PathMix) -> Path {
    let mut path = Path { from_root: true, steps: Vec::new() };
    for _ in 0..depth {
        let mut step = random_step(random, &mut 0, mix);
        step.brackets.push(path);
        path = Path { from_root: random.one_in(mix.one_root_in), steps: vec![step] };
    }
    path
}

/// A text with bytes wrong, or with words of the language in the wrong place.
pub fn damaged_text(random: &mut Random, text: &[u8]) -> Vec<u8> {
    const WORDS: [&[u8]; 24] = [
        b"/",
        b"//",
        b"[",
        b"]",
        b"[]",
        b"[/]",
        b"::",
        b":",
        b"*",
        b"a",
        b"A",
        b"SELF",
        b"Self::Z",
        b" ",
        b"\n",
        b"\r",
        b"self",
        b"child::a",
        b"-or-self",
        b"descendant",
        b"-sibling",
        b"following",
        b"self::*",
        b"\0",
    ];
    damaged_bytes(random, text, &WORDS)
}
