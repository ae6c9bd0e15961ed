//! Trees as XML (document 02, request (vii)): the text of a tree, and the tree of a text. The document node is not written, and every other
//! node is an element, by its label.

use crate::answer::MOST_NODES;
use crate::tree::{Node, Tree, DOCUMENT_NODE, OUTERMOST_ELEMENT};

/// "`_` as the name of a blank."
const BLANK_NAME: u8 = b'_';

/// The text of a tree, or nothing where a label is "neither 0 nor a letter". No text that is written has more than 438 bytes.
pub fn write(tree: &Tree) -> Option<Vec<u8>> {
    let names: Vec<u8> = tree.labels.iter().map(|&label| name_of(label)).collect::<Option<_>>()?;
    let mut text = Vec::new();
    write_element(tree, &names, OUTERMOST_ELEMENT, &mut text);
    Some(text)
}

/// "`<a>` to `</a>`, or `<a/>` for a leaf": the children stand between the tags in their order, which is that of their numbers.
fn write_element(tree: &Tree, names: &[u8], element: Node, text: &mut Vec<u8>) {
    let name = names[element.0];
    if !tree.has_child(element) {
        text.extend([b'<', name, b'/', b'>']);
        return;
    }
    text.extend([b'<', name, b'>']);
    for child in (0..tree.parents.len()).map(Node).filter(|&node| tree.parent(node) == Some(element)) {
        write_element(tree, names, child, text);
    }
    text.extend([b'<', b'/', name, b'>']);
}

/// "Letters keep their case."
fn name_of(label: u8) -> Option<u8> {
    match label {
        0 => Some(BLANK_NAME),
        b'A'..=b'Z' | b'a'..=b'z' => Some(label),
        _ => None,
    }
}

/// The label that has this name, so that what is read is what was written.
fn label_of(name: u8) -> Option<u8> {
    match name {
        BLANK_NAME => Some(0),
        b'A'..=b'Z' | b'a'..=b'z' => Some(name),
        _ => None,
    }
}

/// The tree of a text, "numbered in document order", or nothing for a "text that the writer does not produce, or above 64 nodes with the
/// document node".
pub fn read(text: &[u8]) -> Option<Tree> {
    let mut tree = Tree { parents: vec![None], labels: vec![0] };
    let after = read_element(text, DOCUMENT_NODE, &mut tree)?;
    after.is_empty().then_some(tree)
}

/// Takes the element that the text starts with, and gives what comes after it. It has its number before its children have theirs.
fn read_element<'a>(text: &'a [u8], parent: Node, tree: &mut Tree) -> Option<&'a [u8]> {
    let &[b'<', name, ref after_name @ ..] = text else { return None };
    let label = label_of(name)?;
    let element = Node(tree.parents.len());
    if element.0 == MOST_NODES {
        return None;
    }
    tree.parents.push(Some(parent));
    tree.labels.push(label);
    if let Some(after) = after_name.strip_prefix(b"/>") {
        return Some(after);
    }
    // At least one child follows: an element without any is written as `<a/>`.
    let mut inside = after_name.strip_prefix(b">")?;
    loop {
        inside = read_element(inside, element, tree)?;
        if let Some(after) = inside.strip_prefix(&[b'<', b'/', name, b'>']) {
            return Some(after);
        }
    }
}
