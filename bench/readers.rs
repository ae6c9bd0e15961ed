// The proved reader of paths beside the plain one: texts on which both must agree, and texts to time.
use std::hint::black_box;

use crate::cudreth::cudreth_paths;
use crate::sets::Rng;
use crate::{bounded, head, paths, rounds, row, Times};

type Reader = fn(&[u8], &mut [u8]) -> u64;

const WRITTEN: u64 = 0;
const REFUSED: u64 = 3;
const LONGEST: usize = 1024;
const BUFFER: usize = 1024;

fn proved_read(text: &[u8], records: &mut [u8]) -> u64 {
    unsafe { cudreth_paths(text.as_ptr(), text.len(), records.as_mut_ptr(), records.len()) }
}

fn plain_read(text: &[u8], records: &mut [u8]) -> u64 {
    match paths::read(text, records) {
        Ok(bytes) => WRITTEN << 48 | (bytes as u64) << 32,
        Err(question) => REFUSED << 48 | u64::from(question),
    }
}

const READERS: [Reader; 2] = [proved_read, plain_read];

// Result and every byte of the buffer of both readers, which must be equal.
fn both(text: &[u8], buffer: usize, noise: u8) -> (u64, Vec<u8>) {
    let [proved, plain] = READERS.map(|read| {
        let mut records = vec![noise; buffer];
        let end = read(text, &mut records);
        (end, records)
    });
    assert!(
        proved == plain,
        "they differ on {:?}, buffer {buffer}, noise {noise}:\nproved {:x}, {:02x?}\nplain  {:x}, {:02x?}",
        String::from_utf8_lossy(text),
        proved.0,
        &proved.1[..buffer.min(200)],
        plain.0,
        &plain.1[..buffer.min(200)]
    );
    proved
}

fn answer(end: u64) -> String {
    match end >> 48 {
        WRITTEN => format!("{} records", (end >> 32) as u16 / 4),
        _ => format!("refused {}", end as u32),
    }
}

// ---- texts

const AXES: [&str; 9] = [
    "self",
    "child",
    "parent",
    "descendant",
    "ancestor",
    "descendant-or-self",
    "ancestor-or-self",
    "following-sibling",
    "preceding-sibling",
];

fn step(rng: &mut Rng, text: &mut Vec<u8>) {
    text.extend(AXES[rng.below(AXES.len())].bytes());
    text.extend(b"::");
    text.push(if rng.below(2) == 0 { b'*' } else { b'a' + rng.below(26) as u8 });
}

// The letters that are tests, each in either case.
fn recase(rng: &mut Rng, text: &mut [u8]) {
    for at in 2..text.len() {
        if text[at - 2..at] == *b"::" && text[at].is_ascii_lowercase() && rng.below(2) == 0 {
            text[at] = text[at].to_ascii_uppercase();
        }
    }
}

// A path of at most `steps` steps, brackets included; how many are left.
fn path(rng: &mut Rng, text: &mut Vec<u8>, mut steps: usize) -> usize {
    let from_root = rng.below(3) == 0;
    if from_root {
        text.push(b'/');
    }
    if from_root && rng.below(3) == 0 || steps == 0 {
        if !from_root {
            text.push(b'/');
        }
        return steps;
    }
    loop {
        step(rng, text);
        steps -= 1;
        while rng.below(3) == 0 {
            text.push(b'[');
            steps = path(rng, text, steps);
            text.push(b']');
        }
        if steps == 0 || rng.below(3) == 0 {
            return steps;
        }
        text.push(b'/');
    }
}

fn lines(rng: &mut Rng, lines: usize, steps: usize) -> Vec<u8> {
    let mut text = Vec::new();
    for _ in 0..lines {
        let most = 1 + rng.below(steps);
        path(rng, &mut text, most);
        text.push(b'\n');
    }
    text
}

// One of seven ways to spoil a text, at a place, up to another or by a byte that means something near there.
pub fn spoil(rng: &mut Rng, text: &mut Vec<u8>, way: usize, near: &[u8], (at, to): (usize, usize)) {
    match way {
        0 => text[at] = near[rng.below(near.len())],
        1 => text.insert(at, near[rng.below(near.len())]),
        2 => drop(text.remove(at)),
        3 => drop(text.drain(at..to)),
        4 => text.truncate(at),
        5 => text.extend_from_within(at..to),
        _ => text.swap(at, to - 1),
    }
}

// A place in a text, and one behind it.
pub fn span(rng: &mut Rng, text: &[u8]) -> (usize, usize) {
    let at = rng.below(text.len());
    (at, at + rng.below(text.len() - at) + 1)
}

fn damage(rng: &mut Rng, text: &mut Vec<u8>) {
    let (at, to) = span(rng, text);
    match rng.below(8) {
        7 => text.splice(at..at, AXES[rng.below(AXES.len())].bytes()).for_each(drop),
        way => spoil(rng, text, way, b"/[]:*\n-azsAZ`{ \0\xff", (at, to)),
    }
}

// Mostly of the form, with about as many variables as are allowed; some damaged, with too many lines or too long.
fn trial(rng: &mut Rng) -> Vec<u8> {
    let (many, steps) =
        [(1, 3), (1, 16), (1, 24), (1, 80), (2, 8), (3, 6), (5, 4), (8, 2), (8, 12), (9, 2)][rng.below(10)];
    let mut text = lines(rng, many, steps);
    recase(rng, &mut text);
    for _ in 0..[0, 0, 0, 0, 0, 0, 1, 1, 1, 3][rng.below(10)] {
        if !text.is_empty() {
            damage(rng, &mut text);
        }
    }
    text
}

// Head, `open` as often as fits into `bytes`, middle, `close` as often, tail.
fn filled(head: &str, open: &str, middle: &str, close: &str, tail: &str, bytes: usize) -> Vec<u8> {
    let fixed = head.len() + middle.len() + tail.len();
    let times = (bytes - fixed) / (open.len() + close.len());
    [head, &open.repeat(times), middle, &close.repeat(times), tail].concat().into_bytes()
}

// ---- equal results

const KNOWN: [(&str, &[u8]); 9] = [
    ("/\n", b"\x06\x01\0\0\x04\x01\0\0"),
    ("self::a\n", b"\x04\x01\0\0\x08\0\0a"),
    ("self::A\n", b"\x04\x01\0\0\x08\0\0A"),
    ("/parent::*\n/\n", b"\x06\x01\0\0\x01\0\x01\0\x04\x01\0\0"),
    ("self::*[/]\n", b"\x04\x01\0\0\x06\x02\0\0"),
    ("descendant::*/ancestor-or-self::z\n", b"\x03\x01\x02\0\x02\0\x02\0\x08\0\0z"),
    ("following-sibling::a\n", b"\x09\x01\0\0\x08\0\0a"),
    ("child::*[preceding-sibling::b]\n", b"\x01\x01\0\0\x09\x02\0\0\x08\x02\0b"),
    ("child::a[child::b]/child::c\n", b"\x01\x01\x02\0\x08\x02\0a\x01\x02\x03\0\x08\x03\0b\x01\x02\0\0\x08\0\0c"),
];

// The fixed texts, and as many random ones as are asked for.
pub fn agree(trials: usize) {
    for (text, records) in KNOWN {
        let (end, buffer) = both(text.as_bytes(), BUFFER, 0);
        assert!(end == (records.len() as u64) << 32 && buffer.starts_with(records), "{text}: {}", answer(end));
    }
    let (mut written, mut refused) = (0, [0; 15]);
    let mut rng = Rng(0x2545_f491_4f6c_dd1d);
    for _ in 0..trials {
        let text = trial(&mut rng);
        let buffer = if rng.below(20) == 0 { rng.below(BUFFER) } else { BUFFER + rng.below(3) };
        let (end, _) = both(&text, buffer, rng.below(256) as u8);
        match end >> 48 {
            WRITTEN => written += 1,
            _ => refused[end as u32 as usize] += 1,
        }
    }
    println!(
        "readers: equal results and bytes on {trials} texts ({written} written, refused {} by 7, {} by 13, {} by 14)",
        refused[7], refused[13], refused[14]
    );
}

// ---- times

// Both readers on the texts, for each of them.
fn reading(texts: &[Vec<u8>]) -> Times {
    let mut buffers = [[0u8; BUFFER]; 2];
    let [a, b] = &mut buffers;
    let all = |read: Reader, records: &mut [u8]| {
        texts.iter().fold(0, |sum: u64, text| sum.wrapping_add(read(black_box(text), records)))
    };
    let times = rounds(31, [&mut || all(proved_read, a), &mut || all(plain_read, b)]);
    Times::of(&times, texts.len() as f64)
}

fn timed(name: &str, texts: &[Vec<u8>]) -> (String, Times) {
    let times = reading(texts);
    let bytes = texts.iter().map(Vec::len).sum::<usize>() as f64 / texts.len() as f64;
    let answer = match texts {
        [text] => format!(", {}", answer(both(text, BUFFER, 0).0)),
        _ => String::new(),
    };
    let name =
        format!("{name}, {bytes:.0} bytes{answer}: {:.2} {:.2} a byte", times.proved / bytes, times.plain / bytes);
    (name, times)
}

const MIDDLE: &[u8] = b"/child::a[self::b/parent::*]/descendant::c[/child::d][child::e]/self::*\
/child::f[child::g/child::h]/ancestor-or-self::i[child::j]/child::k/child::l/self::m\n";

const LONG: [&str; 2] = ["/descendant-or-self::a", "/ancestor-or-self::b"];
const SIBLINGS: [&str; 2] = ["/following-sibling::a", "/preceding-sibling::b"];

// A line of each of these numbers of steps, with long names, and `brackets` times [/] at its end.
fn eight(names: [&str; 2], steps: [usize; 8], brackets: usize) -> Vec<u8> {
    let step = |i: usize| names[i % 2];
    let line = |steps: usize| (0..steps).map(step).collect::<String>() + &"[/]".repeat(brackets) + "\n";
    steps.map(line).concat().into_bytes()
}

const NESTED: [&str; 5] = ["", "self::*[", "self::*", "]", "\n"];
const BRACKETS: [&str; 5] = ["self::*", "[/]", "", "", "\n"];
const STEPS: [&str; 5] = ["", "child::a/", "child::b", "", "\n"];
const BRACKETED: [&str; 5] = ["", "self::*[/]/", "self::*", "", "\n"];

fn shaped([head, open, middle, close, tail]: [&str; 5], bytes: usize) -> Vec<u8> {
    filled(head, open, middle, close, tail, bytes)
}

pub fn time() {
    head("(e) reader of paths, ns a text");
    let mut rng = Rng(20_261_115);
    let short: Vec<Vec<u8>> = (0..1000).map(|_| lines(&mut rng, 1, 3)).collect();
    let mut recased = short.clone();
    recased.iter_mut().for_each(|text| recase(&mut rng, text));
    let texts = [
        ("short line", vec![b"child::a\n".to_vec()]),
        ("short line", vec![b"/child::a/descendant::b\n".to_vec()]),
        ("short line", vec![b"child::a[child::b]/child::c\n".to_vec()]),
        ("1,000 short lines", short),
        ("1,000 short lines, letters in both cases", recased),
        ("short line", vec![b"child::a/following-sibling::b\n".to_vec()]),
        ("8 long lines", vec![eight(LONG, [3, 3, 3, 3, 3, 3, 2, 2], 0)]),
        ("8 long lines with [/]", vec![eight(LONG, [3, 3, 3, 3, 3, 3, 2, 2], 22)]),
        ("8 long lines", vec![eight(LONG, [6; 8], 0)]),
        ("8 long lines of siblings", vec![eight(SIBLINGS, [3, 3, 3, 3, 3, 3, 2, 2], 0)]),
        ("8 long lines of siblings", vec![eight(SIBLINGS, [6; 8], 0)]),
        ("nested brackets", vec![shaped(NESTED, LONGEST)]),
    ];
    for (name, texts) in &texts {
        let (name, times) = timed(name, texts);
        bounded(&name, times, 2.0);
    }
    let texts = [("[/] again and again", shaped(BRACKETS, LONGEST)), ("16 variables", MIDDLE.to_vec())];
    for (name, text) in texts {
        let (name, times) = timed(name, &[text]);
        row(&name, times);
    }
    head("    growth with the text, ns a text");
    for (name, shape) in [("steps", STEPS), ("steps with [/]", BRACKETED), ("nested", NESTED), ("[/]", BRACKETS)] {
        for bytes in [128, 256, 512, 1024] {
            let (name, times) = timed(name, &[shaped(shape, bytes)]);
            row(&name, times);
        }
    }
}
