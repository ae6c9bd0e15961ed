//! Texts of trees, whatever the seed. 16 is for a "text that the writer does not produce": a text is read exactly where it is the text of a
//! tree, and of all small trees the texts are here by plain enumeration.

use crate::ordered::{trees, Element, CATALAN};
use crate::xml::shown;
use crate::{disagree, Comparison};
use second::verdict::FillVerdict;
use second::Refusal;
use std::collections::{BTreeSet, HashSet};

/// The text of every tree of up to 6 elements a, B and blank, and of 7 elements a and blank.
type TextsOfTrees = HashSet<Vec<u8>>;

/// Bytes of the form, those beside them, spaces, and some that XML has in other places.
const BYTES: [u8; 36] = [
    0, 9, 10, 13, 32, 33, 34, 38, 39, 45, 46, 47, 48, 57, 58, 59, 60, 61, 62, 63, 64, 65, 66, 90, 91, 92, 94, 95, 96,
    97, 98, 122, 123, 127, 128, 255,
];

/// What XML has and the writer does not produce, and what looks like its texts; parted by `|`.
const NO_TEXTS: &str = "<a></a>|<_></_>|<a><b></b></a>|<a><_></_><c/></a>|<a ></a>|<a />|<a/ >|< a/>|<a\n/>|<a\t/>|\
    <a/> | <a/>|<a/>\n|\n<a/>|<a/>\r\n|<a/>\r|<a/>\t|<a/>\0|\0<a/>|<a\0/>|<\0/>|<a> <b/></a>|<a><b/> </a>|\
    <a>\n<b/>\n</a>|<a><b/></a >|<a><b/></ a>|<a><b/>< /a>|<a><b/></a\n>|<a>x</a>|<a>x<b/></a>|<a><b/>x</a>|x<a/>|\
    <a/>x|<a>&lt;</a>|<ab/>|<aa/>|<__/>|<a_/>|<_a/>|<a1/>|<1/>|<-/>|<:/>|<a:b/>|<*/>|<@/>|<[/>|<`/>|<{/>|<^/>|<é/>|\
    <ab><c/></ab>|<a b=\"c\"/>|<a b=''/>|<a xmlns=\"\"/>|<?xml version=\"1.0\"?><a/>|<!DOCTYPE a><a/>|<!----><a/>|\
    <a/><!---->|<a><!----></a>|<a><![CDATA[]]></a>|\u{feff}<a/>|<a><b></a></b>|<a><b/></A>|<A><b/></a>|<a><b/></b>|\
    <_><b/></a>|<a><b/></_>|<a/><a/>|<a><b/></a><a/>|<a/></a>|</a>|</a/>|<a//>|<a/>>|<<a/>|<a>|<a><b/>|<a|<|<>|</>|\
    <></>|a||refused 16\n";

impl Comparison {
    pub fn all_small_texts_as_trees(&mut self) {
        let texts = self.every_ordered_tree();
        let alone = ["", ""];
        self.all_rows_read("every text of up to 8 bytes of the form", &texts, alone, &["<", ">", "/", "a", "_"], 8);
        self.all_rows_read("every text of up to 6, two letters", &texts, alone, &["<", ">", "/", "a", "B", "_"], 6);
        let inside = ["<a>", "</a>"];
        self.all_rows_read("every text of up to 8 inside an element", &texts, inside, &["<", ">", "/", "a"], 8);
        const TAGS: &str = "every text of up to 7 tags";
        let read = self.all_rows_read(TAGS, &texts, alone, &["<a>", "</a>", "<a/>", "<_>", "</_>", "<_/>"], 7);
        // By hand: a leaf has one tag, another element two. So of 1 to 7 tags there are 1, 0, 1, 1, 1 + 1, 3 + 1 and 1 + 6 + 1 trees without
        // labels, of 1, 2, 3, 3 and 4, 4 and 5, and 4 to 6 elements; each element has either label.
        let by_hand = [2, 0, 4, 8, 8 + 16, 3 * 16 + 32, 16 + 6 * 32 + 64].iter().sum();
        if read != by_hand {
            disagree(TAGS, &format!("{read} were read, by hand {by_hand}"));
        }
        let pieces = ["<", ">", "/", "a", "<a>", "</a>", "<a/>"];
        self.all_rows_read("every text of up to 6 tags and bytes", &texts, alone, &pieces, 6);
        self.one_edit_away(&texts);
        self.two_edits_away(&texts);
        self.every_byte_as_name();
        for text in NO_TEXTS.split('|') {
            self.no_xml("what XML has and the writer does not produce", text.as_bytes());
        }
    }

    /// Every ordered tree has a text that is read as that tree, in document order, and is written of it. There are as many as Catalan's numbers
    /// say, times the labellings, and no two have one text.
    fn every_ordered_tree(&mut self) -> TextsOfTrees {
        const SORT: &str = "the text of every ordered tree of up to 7 elements";
        let mut texts = HashSet::new();
        for (elements, labels) in (1..=6).map(|elements| (elements, &b"a\0B"[..])).chain([(7, &b"a\0"[..])]) {
            let known = texts.len();
            for tree in trees(elements, labels) {
                let text = tree.text().into_bytes();
                self.tree_by_rule(SORT, &tree, &text);
                texts.insert(text);
            }
            let (added, expected) = (texts.len() - known, CATALAN[elements - 1] * labels.len().pow(elements as u32));
            if added != expected {
                disagree(SORT, &format!("{added} texts of {elements} elements, by hand {expected}"));
            }
        }
        texts
    }

    /// The text is read as the records of the tree, and the records are written as the text.
    fn tree_by_rule(&mut self, sort: &'static str, tree: &Element, text: &[u8]) {
        let records = tree.records();
        let (read, written) = (self.text_as_tree(sort, text), self.tree_as_xml(sort, &records));
        if read != FillVerdict::Written(records) || written != FillVerdict::Written(text.to_vec()) {
            disagree(sort, &format!("read {read}, written {written}\n{}", shown(text)));
        }
    }

    /// Every row of up to so many of the words between a front and a back, shorter ones first; gives how many were read.
    fn all_rows_read(
        &mut self,
        sort: &'static str,
        texts: &TextsOfTrees,
        [front, back]: [&str; 2],
        words: &[&str],
        most: usize,
    ) -> usize {
        let mut rows: Vec<Vec<u8>> = vec![front.as_bytes().to_vec()];
        let mut read = 0;
        for length in 0..=most {
            let text_of = |row: &Vec<u8>| [row, back.as_bytes()].concat();
            read += rows.iter().filter(|row| self.is_text_of_tree(sort, texts, &text_of(row))).count();
            if length < most {
                let longer =
                    |row: &Vec<u8>| words.iter().map(|word| [row, word.as_bytes()].concat()).collect::<Vec<_>>();
                rows = rows.iter().flat_map(longer).collect();
            }
        }
        read
    }

    /// Where a text is read it is the text of what was read; where it is refused it must not be among the texts of trees.
    fn is_text_of_tree(&mut self, sort: &'static str, texts: &TextsOfTrees, text: &[u8]) -> bool {
        let is_read = matches!(self.text_as_tree(sort, text), FillVerdict::Written(_));
        if !is_read && texts.contains(text) {
            disagree(sort, &format!("refused, yet a tree has this text\n{}", shown(text)));
        }
        is_read
    }

    /// Texts of up to 4 elements with a byte more, less or changed; those of up to 2 with every byte there is.
    fn one_edit_away(&mut self, texts: &TextsOfTrees) {
        let every_byte: Vec<u8> = (0..=255).collect();
        for elements in 1..=4 {
            let bytes = if elements <= 2 { &every_byte[..] } else { &BYTES };
            for tree in trees(elements, if elements <= 3 { b"a\0" } else { b"a" }) {
                for edited in edits(tree.text().as_bytes(), bytes) {
                    self.is_text_of_tree("texts of up to 4 elements one byte away", texts, &edited);
                }
            }
        }
    }

    /// The same twice, with the bytes of the form and some more.
    fn two_edits_away(&mut self, texts: &TextsOfTrees) {
        for text in ["<a/>", "<a><B/></a>", "<_><_/></_>"] {
            let once: BTreeSet<Vec<u8>> = edits(text.as_bytes(), b"<>/aB_ ").into_iter().collect();
            let twice: BTreeSet<Vec<u8>> = once.iter().flat_map(|edited| edits(edited, b"<>/aB_ ")).collect();
            for edited in &twice {
                self.is_text_of_tree("texts of up to 2 elements two bytes away", texts, edited);
            }
        }
    }

    /// A letter is its own label, `_` is a blank, and no other byte is a name: alone, around another and inside one.
    fn every_byte_as_name(&mut self) {
        const SORT: &str = "every byte as a name";
        for name in 0..=255u8 {
            let leaf = vec![b'<', name, b'/', b'>'];
            let around = [&[b'<', name, b'>'], &b"<a/><"[..], &[b'/', name, b'>']].concat();
            let inside = [b"<a>", &leaf[..], b"</a>"].concat();
            let label = if name == b'_' { 0 } else { name };
            for (text, labels) in [(leaf, &[label][..]), (around, &[label, b'a']), (inside, &[b'a', label])] {
                let records: Vec<u8> = (1..).zip(labels).flat_map(|(own, &label)| [1, own, own - 1, label]).collect();
                let expected = match name == b'_' || name.is_ascii_alphabetic() {
                    true => FillVerdict::Written([&[1, 0, 0, 0], &records[..]].concat()),
                    false => FillVerdict::Refused(Refusal(16)),
                };
                let said = self.text_as_tree(SORT, &text);
                if said != expected {
                    disagree(SORT, &format!("{said}, by the rule {expected}\n{}", shown(&text)));
                }
                self.xml.note_if(label == b'^', "a label that is no name refused with 16");
            }
        }
    }
}

/// Every text with one byte less, or with one of these bytes more or in place of one.
fn edits(text: &[u8], bytes: &[u8]) -> Vec<Vec<u8>> {
    let mut edits = Vec::new();
    for at in 0..=text.len() {
        let (front, back) = text.split_at(at);
        edits.extend(bytes.iter().map(|&byte| [front, &[byte], back].concat()));
        if let Some((_, after)) = back.split_first() {
            edits.push([front, after].concat());
            edits.extend(bytes.iter().map(|&byte| [front, &[byte], after].concat()));
        }
    }
    edits
}
