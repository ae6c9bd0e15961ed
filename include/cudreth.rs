//! Cudreth for a host program in Rust: the six functions of libcapi.a over slices. cudreth.h says more of what they take and answer,
//! docs/FORMAT.md what the bytes mean, and examples/host.rs is a host program.
//!
//! It is a module of the host, which is linked with the archive:
//!
//! ```text
//! #[path = "include/cudreth.rs"]
//! mod cudreth;
//!
//! rustc --edition 2021 -O host.rs -L native=target/staticlib -l static=capi
//! ```
//!
//! Editions 2018, 2021 and 2024, with rustc 1.82 or newer. Any number of threads may call at once; one that calls `solve` wants `STACK`
//! bytes of stack, one that calls `paths` wants `PATHS_STACK`, one that calls `xml_write` or `xml_read` wants `XML_STACK`, and a Rust thread
//! has more than these unless told otherwise.

// A host need not use all of it.
#![allow(dead_code)]

/// Rises with each landing that a host can notice. The archive does not know it: take this file and the archive from one commit.
pub const VERSION: u32 = 8;

/// Every record has 4 bytes; a file has no header.
pub const RECORD_BYTES: usize = 4;
/// The longest constraint file; a longer one is refused with 1.
pub const CONSTRAINTS_BYTES: usize = 1024;
/// The shortest buffer that may be lent to `solve`, and the longest answer it writes: 18 node and 16 place records.
pub const ANSWER_BYTES: usize = 136;
/// Variables are 0 to 15.
pub const VARIABLES: usize = 16;
/// The most nodes that a candidate's tree may have, the document node counted; it has at least 2.
pub const NODES: usize = 64;
/// The longest text of paths; a longer one is refused with 13.
pub const TEXT_BYTES: usize = 1024;
/// The most lines that a text of paths may have; more are refused with 13.
pub const LINES: usize = 8;
/// The shortest buffer that may be lent to `paths`. What is written has at most 180 bytes, 45 records.
pub const RECORDS_BYTES: usize = 1024;
/// The shortest buffer that may be lent to `xml_write`. What is written has at most 438 bytes, 63 elements inside one another.
pub const XML_BYTES: usize = 512;
/// The shortest buffer that may be lent to `xml_read`, and the most it writes: 64 node records.
pub const NODES_BYTES: usize = 256;
/// The most centres that may share a total; a longer list is refused with 18.
pub const CENTRES: usize = 8;
/// Stack enough for `solve`.
pub const STACK: usize = 256 * 1024;
/// Stack enough for `paths`.
pub const PATHS_STACK: usize = 64 * 1024;
/// Stack enough for `xml_write` and for `xml_read`.
pub const XML_STACK: usize = 64 * 1024;

// The first byte of a constraint record: kind, x, y, label. Bytes that a kind does not use are 0.
/// The node of x is the parent of the node of y.
pub const CHILD: u8 = 1;
/// The node of x is that of y or an ancestor of it.
pub const BELOW: u8 = 2;
/// The node of x is a proper ancestor of that of y.
pub const STRICTLY_BELOW: u8 = 3;
/// x and y are on one node.
pub const SAME: u8 = 4;
/// x and y are on two nodes.
pub const DIFFER: u8 = 5;
/// x is on the document node, node 0.
pub const ROOT: u8 = 6;
/// The node of x has no child.
pub const LEAF: u8 = 7;
/// The node of x has that label, 1 to 255, a letter in either case.
pub const LABEL: u8 = 8;
/// x and y are on siblings, and the node of x has the smaller number.
pub const BEFORE: u8 = 9;

// The first byte of an answer record. Node records come first.
/// Own number, parent, label (0 is blank); node 0 is the document node: 0, 0, 0.
pub const NODE: u8 = 1;
/// Variable, its node, 0.
pub const PLACE: u8 = 2;

/// A centre in the list that is lent to `draw`.
#[repr(C)]
#[derive(Clone, Copy, Debug, Default, PartialEq, Eq)]
pub struct Centre {
    /// It can always draw up to this.
    pub guarantee: u32,
    /// And never above this.
    pub cap: u32,
    /// What it has drawn; the one field that changes.
    pub drawn: u32,
}

// Verdicts of `cudreth_solve`.
pub const TREE: u64 = 0;
pub const NONE: u64 = 1;
pub const SPENT: u64 = 2;
// Verdicts of `cudreth_mark`.
pub const MET: u64 = 0;
pub const UNMET: u64 = 1;
// Verdict of `cudreth_paths`, `cudreth_xml_write` and `cudreth_xml_read`.
pub const WRITTEN: u64 = 0;
// Verdict of `cudreth_draw`, and then the whole result.
pub const GRANTED: u64 = 0;
// Of all six.
pub const REFUSED: u64 = 3;

// The questions by number; each function asks its own in this order, but 17 before 15 and 16. `question_words` says what a refusal by each
// means.
// Of the whole constraint file, by `solve` and `mark`:
pub const Q_CONSTRAINTS_LONG: u32 = 1;
pub const Q_CONSTRAINTS_CUT: u32 = 2;
// of each of its records, before the next record:
pub const Q_KIND: u32 = 3;
pub const Q_VARIABLE: u32 = 4;
pub const Q_LABEL: u32 = 5;
pub const Q_UNUSED: u32 = 6;
// of the lent buffer, by `solve` (`ANSWER_BYTES`) and `paths` (`RECORDS_BYTES`):
pub const Q_BUFFER: u32 = 7;
// of the answer file, by `mark`, and of node records alone, by `xml_write`, each of all records before the next question (by 9 `xml_write`
// refuses a place record too):
pub const Q_ANSWER_CUT: u32 = 8;
pub const Q_ANSWER_KIND: u32 = 9;
pub const Q_NODE_COUNT: u32 = 10;
pub const Q_NODES: u32 = 11;
// of the answer file, by `mark` alone:
pub const Q_PLACES: u32 = 12;
// of the text, by `paths` alone:
pub const Q_TEXT_FORM: u32 = 13;
pub const Q_TEXT_VARIABLES: u32 = 14;
// of the nodes' labels, by `xml_write` alone:
pub const Q_XML_LABEL: u32 = 15;
// of the text, by `xml_read` alone:
pub const Q_XML_FORM: u32 = 16;
// of the lent buffer, by `xml_write` (`XML_BYTES`), before 15, and `xml_read` (`NODES_BYTES`), before 16:
pub const Q_XML_BUFFER: u32 = 17;
// of the list of centres and the draw from it, by `draw` alone (by 18 also where the list is sound and the centre is not in it):
pub const Q_CENTRES: u32 = 18;
pub const Q_CAP: u32 = 19;
pub const Q_REMAINS: u32 = 20;

unsafe extern "C" {
    pub fn cudreth_solve(
        constraints: *const u8,
        constraints_len: usize,
        answer: *mut u8,
        answer_len: usize,
        allowance: u32,
    ) -> u64;
    pub fn cudreth_mark(constraints: *const u8, constraints_len: usize, answer: *const u8, answer_len: usize) -> u64;
    pub fn cudreth_paths(text: *const u8, text_len: usize, records: *mut u8, records_len: usize) -> u64;
    pub fn cudreth_xml_write(nodes: *const u8, nodes_len: usize, text: *mut u8, text_len: usize) -> u64;
    pub fn cudreth_xml_read(text: *const u8, text_len: usize, nodes: *mut u8, nodes_len: usize) -> u64;
    pub fn cudreth_draw(centres: *mut Centre, centres_len: usize, total: u32, centre: usize, amount: u32) -> u64;
}

/// What `solve` answers. `count` is the number of alternatives entered.
#[derive(Clone, Copy, Debug, PartialEq, Eq)]
pub enum Solved {
    /// A tree was written to the front of the buffer, in so many bytes.
    Tree { written: usize, count: u32 },
    /// No tree of any size meets the constraints.
    None { count: u32 },
    /// The allowance ran out first; a larger one may tell.
    Spent { count: u32 },
    /// The question of that number was answered with no.
    Refused { question: u32 },
}

/// What `mark` answers.
#[derive(Clone, Copy, Debug, PartialEq, Eq)]
pub enum Marked {
    /// Every record is met.
    Met,
    /// The kind of the first unmet record, and its position, from 0.
    Unmet { kind: u8, position: u32 },
    /// The question of that number was answered with no.
    Refused { question: u32 },
}

/// What `paths` answers.
#[derive(Clone, Copy, Debug, PartialEq, Eq)]
pub enum PathsRead {
    /// The records were written to the front of the buffer, in so many bytes.
    Written { written: usize },
    /// The question of that number was answered with no.
    Refused { question: u32 },
}

/// What `xml_write` and `xml_read` answer.
#[derive(Clone, Copy, Debug, PartialEq, Eq)]
pub enum Xml {
    /// The text or the node records were written to the front of the buffer, in so many bytes.
    Written { written: usize },
    /// The question of that number was answered with no.
    Refused { question: u32 },
}

/// What `draw` answers.
#[derive(Clone, Copy, Debug, PartialEq, Eq)]
pub enum Drawn {
    /// The amount was added to what the centre has drawn.
    Granted,
    /// The question of that number was answered with no; no record has changed.
    Refused { question: u32 },
}

// A result is verdict * 2^48 + middle * 2^32 + low.
fn parts(result: u64) -> (u64, u16, u32) {
    (result >> 48, (result >> 32) as u16, result as u32)
}

impl Solved {
    /// The meaning of a result of `cudreth_solve`.
    pub fn decode(result: u64) -> Solved {
        match parts(result) {
            (TREE, written, count) => Solved::Tree { written: usize::from(written), count },
            (NONE, _, count) => Solved::None { count },
            (SPENT, _, count) => Solved::Spent { count },
            (_, _, question) => Solved::Refused { question },
        }
    }
}

impl Marked {
    /// The meaning of a result of `cudreth_mark`.
    pub fn decode(result: u64) -> Marked {
        match parts(result) {
            (MET, _, _) => Marked::Met,
            (UNMET, kind, position) => Marked::Unmet { kind: kind as u8, position },
            (_, _, question) => Marked::Refused { question },
        }
    }
}

impl PathsRead {
    /// The meaning of a result of `cudreth_paths`.
    pub fn decode(result: u64) -> PathsRead {
        match parts(result) {
            (WRITTEN, written, _) => PathsRead::Written { written: usize::from(written) },
            (_, _, question) => PathsRead::Refused { question },
        }
    }
}

impl Xml {
    /// The meaning of a result of `cudreth_xml_write` or of `cudreth_xml_read`.
    pub fn decode(result: u64) -> Xml {
        match parts(result) {
            (WRITTEN, written, _) => Xml::Written { written: usize::from(written) },
            (_, _, question) => Xml::Refused { question },
        }
    }
}

impl Drawn {
    /// The meaning of a result of `cudreth_draw`.
    pub fn decode(result: u64) -> Drawn {
        match parts(result) {
            (GRANTED, _, _) => Drawn::Granted,
            (_, _, question) => Drawn::Refused { question },
        }
    }
}

/// Solves the constraint file, entering at most `allowance` alternatives. Only `Solved::Tree` writes: `written` bytes at the front of
/// `answer`; all other bytes stay as they were. `answer` has at least `ANSWER_BYTES` bytes, or is refused.
///
/// The records of an accepted file in another order get, with the same allowance and a buffer that is long enough, the same answer and
/// write the same bytes; a refused file stays refused, by its first bad record. With its variables renumbered one to one an accepted file
/// still has none or a tree, whichever it had, but count and tree may change, and so may whether the allowance is enough.
///
/// Capitals, labels 65 to 90, count as small letters: two constraint files that are equal but for the case of their labels get, with the
/// same allowance and buffers that are long enough, the same answer and the same bytes. No tree that is written has a capital.
pub fn solve(constraints: &[u8], answer: &mut [u8], allowance: u32) -> Solved {
    // Safe: a slice's pointer is valid for its length, and not null where that is 0; `answer` overlaps nothing that is borrowed.
    Solved::decode(unsafe {
        cudreth_solve(constraints.as_ptr(), constraints.len(), answer.as_mut_ptr(), answer.len(), allowance)
    })
}

/// Marks a candidate's answer file. With the same records in another order met stays met; position and kind are those of the first unmet
/// record in the order of the file that is marked. The case of labels, in either file, changes nothing.
pub fn mark(constraints: &[u8], answer: &[u8]) -> Marked {
    // Safe: as in `solve`; nothing is written.
    Marked::decode(unsafe { cudreth_mark(constraints.as_ptr(), constraints.len(), answer.as_ptr(), answer.len()) })
}

/// Reads a text of 1 to 8 paths, each a line, and writes the constraint file that some tree meets if and only if some tree has a node
/// that every line selects; variable 0 stands for that node. Only `PathsRead::Written` writes: `written` bytes at the front of `records`;
/// all other bytes stay as they were. `records` has at least `RECORDS_BYTES` bytes, or is refused.
///
/// A test is a letter in either case, whose byte as it stands in the text is the label written, or `*`; names of axes are small. Two texts
/// of paths that are equal but for the case of their tests get, with buffers that are long enough, the same answer, and records that are
/// equal but for the case of their labels.
pub fn paths(text: &[u8], records: &mut [u8]) -> PathsRead {
    // Safe: as in `solve`.
    PathsRead::decode(unsafe { cudreth_paths(text.as_ptr(), text.len(), records.as_mut_ptr(), records.len()) })
}

/// Writes a tree as XML: an element is `<a>` to `</a>` around its children, in the order of their numbers, or `<a/>` if it is a leaf. Its
/// name is its label, a letter in the case that it has, or `_` if it is blank. There is no space and no newline; the document node is not
/// written. `nodes` has node records alone, as they stand at the front of an answer file: a place record is refused with 9. Only
/// `Xml::Written` writes: `written` bytes at the front of `text`, all of them ASCII; all other bytes stay as they were. `text` has at least
/// `XML_BYTES` bytes, or is refused.
///
/// Two trees give the same text only if they are the same ordered tree with the same labels, however their nodes are numbered.
pub fn xml_write(nodes: &[u8], text: &mut [u8]) -> Xml {
    // Safe: as in `solve`.
    Xml::decode(unsafe { cudreth_xml_write(nodes.as_ptr(), nodes.len(), text.as_mut_ptr(), text.len()) })
}

/// Reads a text that `xml_write` writes, and writes the node records of its tree, numbered in document order: a node before its children,
/// and all that is below it before its next sibling. Only `Xml::Written` writes: `written` bytes at the front of `nodes`; all other bytes
/// stay as they were. `nodes` has at least `NODES_BYTES` bytes, or is refused.
///
/// The tree read is the one that was written, and written again it is the same text. Every other text is refused with 16, also XML that
/// says the same in other bytes: `<a></a>` for `<a/>`, or a newline at the end.
pub fn xml_read(text: &[u8], nodes: &mut [u8]) -> Xml {
    // Safe: as in `solve`.
    Xml::decode(unsafe { cudreth_xml_read(text.as_ptr(), text.len(), nodes.as_mut_ptr(), nodes.len()) })
}

/// Draws `amount` choices for one of the centres, which are numbered from 0, out of the `total` that they share. The list is sound if no
/// guarantee and no amount drawn exceeds its cap, and the larger of guarantee and drawn, summed over the centres, is at most `total`. A draw,
/// one of 0 too, is refused, in this order: with 18 if the list is not sound or has more than `CENTRES` records, or if `centre` is not below
/// its length; with 19 if it would pass the centre's cap; with 20 if it would pass what remains: `total`, less what all centres have drawn,
/// less the undrawn guarantees of the others.
///
/// A refused draw changes no record. `Drawn::Granted` adds `amount` to the centre's `drawn` and changes nothing else. So a sound list stays
/// sound, and from a sound list every centre can always draw up to its guarantee, whatever the others did, and never above its cap.
///
/// Threads that draw from one list take turns, as `&mut` asks: the list stands in a `Mutex` of the host's.
pub fn draw(centres: &mut [Centre], total: u32, centre: usize, amount: u32) -> Drawn {
    // Safe: as in `solve`; a slice is aligned as its records are.
    Drawn::decode(unsafe { cudreth_draw(centres.as_mut_ptr(), centres.len(), total, centre, amount) })
}

/// Why a file, records, a buffer, a text or a draw were refused, by the number of the question.
pub fn question_words(question: u32) -> &'static str {
    match question {
        Q_CONSTRAINTS_LONG => "the constraint file has more than 1,024 bytes",
        Q_CONSTRAINTS_CUT => "the length of the constraint file is not a multiple of 4",
        Q_KIND => "the kind of a constraint record is not 1 to 9",
        Q_VARIABLE => "a constraint record names a variable above 15",
        Q_LABEL => "a label record has the label 0",
        Q_UNUSED => "a byte that the record's kind does not use is not 0",
        Q_BUFFER => "the lent buffer has less than 136 bytes for an answer, or less than 1,024 for records",
        Q_ANSWER_CUT => "the length of the answer file, or of the node records, is not a multiple of 4",
        Q_ANSWER_KIND => "an answer record is neither node nor place, or a node comes after a place, or a record to be written as XML is no node",
        Q_NODE_COUNT => "there are not 2 to 64 node records",
        Q_NODES => "a node's number is not its position or its parent is not smaller, or node 0 is not blank with parent 0 and one child",
        Q_PLACES => "the places are not variables 0 to n-1 in order, each on a node of the tree, fourth byte 0",
        Q_TEXT_FORM => "the text is not 1 to 8 lines of paths, each ended by byte 10, in at most 1,024 bytes",
        Q_TEXT_VARIABLES => "the paths need more than 16 variables",
        Q_XML_LABEL => "a label to be written as XML is neither 0 nor a letter",
        Q_XML_FORM => "the text is not one that a tree of at most 64 nodes, the document node counted, is written as",
        Q_XML_BUFFER => "the lent buffer has less than 512 bytes for XML, or less than 256 for node records",
        Q_CENTRES => "the list of centres is not sound or has more than 8 records, or there is no such centre",
        Q_CAP => "the draw would pass the centre's cap",
        Q_REMAINS => "the draw would pass what remains after the undrawn guarantees of the others",
        _ => "a question that this version does not know",
    }
}

/// The name of a kind, as the program `mark` prints it.
pub fn kind_words(kind: u8) -> &'static str {
    match kind {
        CHILD => "child",
        BELOW => "below",
        STRICTLY_BELOW => "strictly-below",
        SAME => "same",
        DIFFER => "differ",
        ROOT => "root",
        LEAF => "leaf",
        LABEL => "label",
        BEFORE => "before",
        _ => "a kind that this version does not know",
    }
}
