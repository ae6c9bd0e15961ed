//! The host program of host.c in Rust: the same questions, and the same lines, held to examples/host.stdout.

#[path = "../include/cudreth.rs"]
mod cudreth;

use cudreth::{
    Centre, Drawn, Marked, PathsRead, Solved, Xml, ANSWER_BYTES, BEFORE, BELOW, CHILD, DIFFER, LABEL, NODE,
    NODES_BYTES, PLACE, RECORDS_BYTES, RECORD_BYTES, ROOT, STRICTLY_BELOW, XML_BYTES,
};

fn print_answer(answer: &[u8]) {
    for record in answer.chunks(RECORD_BYTES) {
        if record[0] == NODE {
            println!("node {} {} {}", record[1], record[2], record[3]);
        } else {
            println!("var {} {}", record[1], record[2]);
        }
    }
}

fn print_refused(question: u32) {
    println!("refused {}: {}", question, cudreth::question_words(question));
}

fn print_solved(solved: Solved, answer: &[u8]) {
    match solved {
        Solved::Tree { written, count } => {
            println!("tree {}", count);
            print_answer(&answer[..written]);
        }
        Solved::None { count } => println!("none {}", count),
        Solved::Spent { count } => println!("spent {}", count),
        Solved::Refused { question } => print_refused(question),
    }
}

fn print_marked(marked: Marked) {
    match marked {
        Marked::Met => println!("met"),
        Marked::Unmet { kind, position } => println!("unmet {} {}", position, cudreth::kind_words(kind)),
        Marked::Refused { question } => print_refused(question),
    }
}

fn print_records(records: &[u8]) {
    for record in records.chunks(RECORD_BYTES) {
        println!("{} {} {} {}", cudreth::kind_words(record[0]), record[1], record[2], record[3]);
    }
}

fn print_read(read: PathsRead, records: &[u8]) {
    match read {
        PathsRead::Written { written } => print_records(&records[..written]),
        PathsRead::Refused { question } => print_refused(question),
    }
}

fn print_xml(wrote: Xml, text: &[u8]) {
    match wrote {
        Xml::Written { written } => println!("{}", String::from_utf8_lossy(&text[..written])),
        Xml::Refused { question } => print_refused(question),
    }
}

fn print_nodes(read: Xml, nodes: &[u8]) {
    match read {
        Xml::Written { written } => print_answer(&nodes[..written]),
        Xml::Refused { question } => print_refused(question),
    }
}

/// How much was written to a buffer that was filled with 0xee, and how much of it is as it was.
fn print_written(buffer: &[u8], written: usize) {
    let unchanged = buffer[written..].iter().take_while(|byte| **byte == 0xee).count();
    println!("{} bytes written, {} left as they were", written, unchanged);
}

#[rustfmt::skip]
const QUESTION: [u8; 16] = [
    ROOT,   1, 0, 0,
    CHILD,  1, 2, 0,
    BELOW,  0, 2, 0,
    DIFFER, 0, 1, 0,
];

#[rustfmt::skip]
const WRONG: [u8; 20] = [
    NODE,  0, 0, 0,
    NODE,  1, 0, 0,
    PLACE, 0, 0, 0,
    PLACE, 1, 0, 0,
    PLACE, 2, 1, 0,
];

/// A question, the same from last record to first, and the same with variables 0 and 1 exchanged.
#[rustfmt::skip]
const FIRST_ORDER: [u8; 12] = [
    BELOW, 0, 1, 0,
    BELOW, 1, 3, 0,
    BELOW, 2, 3, 0,
];

#[rustfmt::skip]
const LAST_TO_FIRST: [u8; 12] = [
    BELOW, 2, 3, 0,
    BELOW, 1, 3, 0,
    BELOW, 0, 1, 0,
];

#[rustfmt::skip]
const EXCHANGED: [u8; 12] = [
    BELOW, 1, 0, 0,
    BELOW, 0, 3, 0,
    BELOW, 2, 3, 0,
];

#[rustfmt::skip]
const UPSIDE_DOWN: [u8; 24] = [
    NODE,  0, 0, 0,
    NODE,  1, 0, 0,
    PLACE, 0, 1, 0,
    PLACE, 1, 1, 0,
    PLACE, 2, 1, 0,
    PLACE, 3, 0, 0,
];

/// Siblings in order: 0 waits for 3.
#[rustfmt::skip]
const BROTHERS: [u8; 8] = [
    BEFORE, 3, 0, 0,
    DIFFER, 1, 2, 0,
];

#[rustfmt::skip]
const PAIR: [u8; 4] = [
    BEFORE, 0, 1, 0,
];

#[rustfmt::skip]
const TURNED: [u8; 24] = [
    NODE,  0, 0, 0,
    NODE,  1, 0, 0,
    NODE,  2, 1, 0,
    NODE,  3, 1, 0,
    PLACE, 0, 3, 0,
    PLACE, 1, 2, 0,
];

#[rustfmt::skip]
const DOCUMENT: [u8; 8] = [
    ROOT,  0, 0, 0,
    CHILD, 0, 2, 0,
];

#[rustfmt::skip]
const NAMED: [u8; 20] = [
    NODE,  0, 0, b'a',
    NODE,  1, 0, 0,
    PLACE, 0, 0, 0,
    PLACE, 1, 1, 0,
    PLACE, 2, 1, 0,
];

#[rustfmt::skip]
const TOO_LOW: [u8; 24] = [
    NODE,  0, 0, 0,
    NODE,  1, 0, 0,
    NODE,  2, 1, 0,
    PLACE, 0, 1, 0,
    PLACE, 1, 1, 0,
    PLACE, 2, 2, 0,
];

#[rustfmt::skip]
const BOTH_CASES: [u8; 8] = [
    LABEL, 0, 0, b'A',
    LABEL, 0, 0, b'a',
];

#[rustfmt::skip]
const CAPITAL: [u8; 12] = [
    NODE,  0, 0, 0,
    NODE,  1, 0, b'A',
    PLACE, 0, 1, 0,
];

#[rustfmt::skip]
const BRACKET: [u8; 4] = [
    LABEL, 0, 0, b'[',
];

#[rustfmt::skip]
const BRACE: [u8; 12] = [
    NODE,  0, 0, 0,
    NODE,  1, 0, b'{',
    PLACE, 0, 1, 0,
];

#[rustfmt::skip]
const OVERLAP: [u8; 16] = [
    BELOW,          1, 2, 0,
    STRICTLY_BELOW, 0, 2, 0,
    BEFORE,         0, 3, 0,
    BEFORE,         2, 3, 0,
];

const LINES: &str = "/child::a/descendant::c\nchild::b/child::c\n";

#[rustfmt::skip]
const NUMBERED_BY_DEPTH: [u8; 24] = [
    CHILD, 0, 1, 0,
    CHILD, 0, 2, 0,
    CHILD, 1, 3, 0,
    LABEL, 0, 0, b'a',
    LABEL, 2, 0, b'b',
    LABEL, 3, 0, b'c',
];

#[rustfmt::skip]
const DRAWN: [u8; 12] = [
    NODE, 0, 0, 0,
    NODE, 1, 0, b'A',
    NODE, 2, 1, b'a',
];

/// Ten choices for three centres. Of the ten, four are nobody's guarantee.
const SESSION_TOTAL: u32 = 10;
const SESSION: [Centre; 3] = [
    Centre { guarantee: 2, cap: 6, drawn: 0 },
    Centre { guarantee: 3, cap: 5, drawn: 0 },
    Centre { guarantee: 1, cap: 10, drawn: 0 },
];

/// M10: solved, and four answers to it marked.
fn solve_and_mark(answer: &mut [u8]) {
    print!("allowance 1: ");
    print_solved(cudreth::solve(&QUESTION, answer, 1), answer);
    print!("buffer 135: ");
    print_solved(cudreth::solve(&QUESTION, &mut answer[..ANSWER_BYTES - 1], 1), answer);
    let solved = cudreth::solve(&QUESTION, answer, u32::MAX);
    print_solved(solved, answer);
    let written = if let Solved::Tree { written, .. } = solved { written } else { 0 };
    print_written(answer, written);

    print!("that answer: ");
    print_marked(cudreth::mark(&QUESTION, &answer[..written]));
    print!("0 and 1 on one node: ");
    print_marked(cudreth::mark(&QUESTION, &WRONG));
    print!("the last byte lost: ");
    print_marked(cudreth::mark(&QUESTION, &answer[..written - 1]));
    print!("empty files: ");
    print_marked(cudreth::mark(&[], &[]));
}

/// The order of the records matters to which of them is named as unmet, and to nothing else; another numbering to count and tree.
fn solve_shuffled(answer: &mut [u8]) {
    let mut other = answer.to_vec();
    let solved = cudreth::solve(&FIRST_ORDER, answer, u32::MAX);
    print_solved(solved, answer);
    let again = cudreth::solve(&LAST_TO_FIRST, &mut other, u32::MAX);
    let same = again == solved && other == answer;
    let words = if same { "the same verdict, count and bytes" } else { "another result" };
    println!("from last record to first: {}", words);
    print!("0 and 1 exchanged: ");
    print_solved(cudreth::solve(&EXCHANGED, answer, u32::MAX), answer);
    print!("3 above 2 and 1: ");
    print_marked(cudreth::mark(&FIRST_ORDER, &UPSIDE_DOWN));
    print!("from last record to first: ");
    print_marked(cudreth::mark(&LAST_TO_FIRST, &UPSIDE_DOWN));
}

/// Siblings in order, then before(0,1), marked with 0 on the second child and 1 on the first.
fn solve_brothers(answer: &mut [u8]) {
    print_solved(cudreth::solve(&BROTHERS, answer, u32::MAX), answer);
    print!("the second child before the first: ");
    print_marked(cudreth::mark(&PAIR, &TURNED));
}

/// The document node: variable 1 is below 2, its child. Then an answer whose document node has a name, and one with 0 on its child.
fn solve_document(answer: &mut [u8]) {
    print_solved(cudreth::solve(&DOCUMENT, answer, u32::MAX), answer);
    print!("a name on the document node: ");
    print_marked(cudreth::mark(&DOCUMENT, &NAMED));
    print!("0 on its child: ");
    print_marked(cudreth::mark(&DOCUMENT, &TOO_LOW));
}

/// Capitals count as small letters: A and a are one label, and the tree has the small one. Then a tree drawn with A, and one with { for [.
fn solve_capitals(answer: &mut [u8]) {
    print_solved(cudreth::solve(&BOTH_CASES, answer, u32::MAX), answer);
    print!("a capital drawn: ");
    print_marked(cudreth::mark(&BOTH_CASES, &CAPITAL));
    print!("{{ drawn for [: ");
    print_marked(cudreth::mark(&BRACKET, &BRACE));
}

/// A set without a tree, in 8 choices: the second alternative of a chain join does not try 0 and 1 on one node once more, which would make 10.
fn solve_overlap(answer: &mut [u8]) {
    for allowance in 7..=8 {
        print!("allowance {}: ", allowance);
        print_solved(cudreth::solve(&OVERLAP, answer, allowance), answer);
    }
}

/// A node that both lines select: its records, then a tree that has it, as the node of variable 0.
fn read_and_solve(records: &mut [u8], answer: &mut [u8]) {
    let text = LINES.as_bytes();
    print!("{}", LINES);
    let read = cudreth::paths(text, records);
    print_read(read, records);
    let written = if let PathsRead::Written { written } = read { written } else { 0 };
    print_written(records, written);
    print_solved(cudreth::solve(&records[..written], answer, u32::MAX), answer);
    print!("the last byte lost: ");
    print_read(cudreth::paths(&text[..text.len() - 1], records), records);
}

/// The records of an answer without its places, which XML has not.
fn without_places(answer: &[u8]) -> &[u8] {
    let nodes = answer.chunks(RECORD_BYTES).take_while(|record| record[0] == NODE).count();
    &answer[..nodes * RECORD_BYTES]
}

fn written(end: Xml) -> usize {
    if let Xml::Written { written } = end {
        written
    } else {
        0
    }
}

/// What is refused: an answer with its places, a buffer of 511 bytes for a text, a text with a newline, a buffer of 255 bytes for nodes.
fn refuse_xml(answer: &[u8], text: &mut [u8], length: usize, nodes: &mut [u8]) {
    print!("places left on: ");
    print_xml(cudreth::xml_write(answer, text), text);
    print!("buffer 511: ");
    print_xml(cudreth::xml_write(without_places(answer), &mut text[..XML_BYTES - 1]), text);
    text[length] = b'\n';
    print!("a newline at the end: ");
    print_nodes(cudreth::xml_read(&text[..=length], nodes), nodes);
    print!("buffer 255: ");
    print_nodes(cudreth::xml_read(&text[..length], &mut nodes[..NODES_BYTES - 1]), nodes);
}

/// A tree as XML and back. What is read is numbered in document order, the solver's tree by depth; written again it is the same text.
fn write_and_read(answer: &mut [u8], text: &mut [u8], nodes: &mut [u8]) {
    let solved = cudreth::solve(&NUMBERED_BY_DEPTH, answer, u32::MAX);
    print_solved(solved, answer);
    let answer = if let Solved::Tree { written, .. } = solved { &answer[..written] } else { &[] };
    let wrote = cudreth::xml_write(without_places(answer), text);
    print_xml(wrote, text);
    print_written(text, written(wrote));
    let read = cudreth::xml_read(&text[..written(wrote)], nodes);
    print_nodes(read, nodes);
    print_written(nodes, written(read));

    refuse_xml(answer, text, written(wrote), nodes);
    print!("a capital drawn: ");
    print_xml(cudreth::xml_write(&DRAWN, text), text);
    let mut drawn = DRAWN;
    drawn[11] = b'_';
    print!("_ drawn as a label: ");
    print_xml(cudreth::xml_write(&drawn, text), text);
    print!("what was read: ");
    print_xml(cudreth::xml_write(&nodes[..written(read)], text), text);
}

fn draw(centres: &mut [Centre], total: u32, centre: usize, amount: u32) -> bool {
    print!("centre {} draws {}: ", centre, amount);
    let drawn = cudreth::draw(centres, total, centre, amount);
    match drawn {
        Drawn::Granted => println!("granted, {} of at most {}", centres[centre].drawn, centres[centre].cap),
        Drawn::Refused { question } => print_refused(question),
    }
    drawn == Drawn::Granted
}

/// M10 with what the centre draws as its allowance. Choices that the search does not need are not given back.
fn draw_and_solve(centres: &mut [Centre], centre: usize, amount: u32, answer: &mut [u8]) {
    if draw(centres, SESSION_TOTAL, centre, amount) {
        print_solved(cudreth::solve(&QUESTION, answer, amount), answer);
    }
}

/// Centre 0 takes all four that are nobody's beside its guarantee; 2 and then 1 still get theirs. Then no such centre, and a total too small.
fn share_session(centres: &mut [Centre], answer: &mut [u8]) {
    for (centre, amount) in [(0, 1), (0, 5), (0, 1), (2, 2), (2, 1), (1, 3), (3, 0)].iter() {
        draw_and_solve(centres, *centre, *amount, answer);
    }
    print!("of 9, ");
    draw(centres, SESSION_TOTAL - 1, 0, 0);
    println!("drawn {}, {} and {}", centres[0].drawn, centres[1].drawn, centres[2].drawn);
}

fn main() {
    println!("version {}", cudreth::VERSION);
    // Lent from the heap, at their exact lengths, so that a memory checker sees every byte too far.
    let mut answer = vec![0xee; ANSWER_BYTES];
    let mut records = vec![0xee; RECORDS_BYTES];
    let mut text = vec![0xee; XML_BYTES];
    let mut nodes = vec![0xee; NODES_BYTES];
    let mut centres = SESSION.to_vec();

    solve_and_mark(&mut answer);
    solve_shuffled(&mut answer);
    solve_brothers(&mut answer);
    solve_document(&mut answer);
    solve_capitals(&mut answer);
    solve_overlap(&mut answer);
    read_and_solve(&mut records, &mut answer);
    write_and_read(&mut answer, &mut text, &mut nodes);
    share_session(&mut centres, &mut answer);
    for question in cudreth::Q_CONSTRAINTS_LONG..=cudreth::Q_REMAINS {
        print_refused(question);
    }
}
