//! A text of XML read byte by byte ("Trees as XML" in docs/FORMAT.md), to find the first byte that no text of a tree has there, for question
//! 16. An element that is open and has no child yet still needs one, and 63 elements are the most. The second reader is only asked whether the
//! bytes before it can be gone on from.

use second::answer::MOST_NODES;
use second::xml;

const MOST_ELEMENTS: usize = MOST_NODES - 1;

/// What the last byte has ended.
#[derive(Clone, Copy, PartialEq, Eq)]
enum After {
    Nothing,
    /// The `<` of the first tag, or of one behind an open tag: an element begins.
    Opening,
    /// The `<` of a tag behind a whole element.
    Either,
    /// The name of an element that begins.
    Name(u8),
    /// The `/` of `<a/>`.
    LeafSlash,
    /// `<a>`, which a child must follow.
    OpenTag,
    /// `</`, and then the name.
    CloseSlash,
    CloseName,
    /// A whole element.
    Element,
}

struct Machine {
    after: After,
    /// The names of the elements that are open.
    open: Vec<u8>,
    elements: usize,
    most: usize,
}

impl Machine {
    /// Goes on by a byte, if some text of a tree has it here.
    fn step(&mut self, byte: u8) -> Option<()> {
        self.after = match (self.after, byte) {
            (After::Nothing | After::OpenTag, b'<') => After::Opening,
            (After::Element, b'<') if !self.open.is_empty() => After::Either,
            (After::Either, b'/') => After::CloseSlash,
            (After::Opening | After::Either, b'a'..=b'z' | b'A'..=b'Z' | b'_') if self.elements < self.most => {
                self.elements += 1;
                After::Name(byte)
            }
            (After::Name(_), b'/') => After::LeafSlash,
            (After::Name(name), b'>') if self.elements < self.most => {
                self.open.push(name);
                After::OpenTag
            }
            (After::LeafSlash, b'>') => After::Element,
            (After::CloseSlash, name) if self.open.last() == Some(&name) => After::CloseName,
            (After::CloseName, b'>') => {
                self.open.pop();
                After::Element
            }
            _ => return None,
        };
        Some(())
    }

    /// The least that must still come.
    fn completion(&self) -> Vec<u8> {
        let (tag, closed) = match (self.after, self.open.last()) {
            (After::Nothing | After::OpenTag, _) => (b"<a/>".to_vec(), 0),
            (After::Opening, _) => (b"a/>".to_vec(), 0),
            (After::Name(_), _) => (b"/>".to_vec(), 0),
            (After::LeafSlash, _) => (b">".to_vec(), 0),
            (After::Either, Some(&name)) => (vec![b'/', name, b'>'], 1),
            (After::CloseSlash, Some(&name)) => (vec![name, b'>'], 1),
            (After::CloseName, _) => (b">".to_vec(), 1),
            _ => (Vec::new(), 0),
        };
        let still_open = self.open.iter().rev().skip(closed);
        still_open.fold(tag, |text, &name| [&text[..], b"</", &[name], b">"].concat())
    }
}

/// The first byte that no text of a tree has there, or the end, where one lacks, and a name for why; nothing if the text is that of a tree.
pub fn no_form(text: &[u8]) -> Option<(usize, &'static str)> {
    let mut machine = Machine { after: After::Nothing, open: Vec::new(), elements: 0, most: MOST_ELEMENTS };
    let wrong = text.iter().position(|&byte| machine.step(byte).is_none());
    let whole = [&text[..wrong.unwrap_or(text.len())], &machine.completion()].concat();
    assert!(xml::read(&whole).is_some(), "the second reader takes {}", whole.escape_ascii());
    match wrong {
        None if whole == text => None,
        None => Some((text.len(), "at the end")),
        Some(at) => {
            machine.most += 1;
            Some((at, if machine.step(text[at]).is_some() { "for its elements" } else { "for its form" }))
        }
    }
}
