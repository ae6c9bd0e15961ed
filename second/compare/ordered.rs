//! Ordered labelled trees as such: an element is a label and a row of elements, and has no number. Here are the text of such a tree and its
//! node records in document order once more, apart from the second side's, and every small one by plain enumeration.

#[derive(Clone, PartialEq, Eq, PartialOrd, Ord, Debug)]
pub struct Element {
    pub label: u8,
    pub children: Vec<Element>,
}

impl Element {
    /// The outermost element that node records draw; questions 8 to 11 must have let them pass.
    pub fn drawn(node_records: &[u8]) -> Element {
        Element::at(node_records, 1)
    }

    /// Siblings stand in the order of their numbers, all of which are higher than their parent's.
    fn at(node_records: &[u8], number: usize) -> Element {
        let later = number + 1..node_records.len() / 4;
        let is_child = |&node: &usize| node_records[4 * node + 2] as usize == number;
        let children = later.filter(is_child).map(|node| Element::at(node_records, node)).collect();
        Element { label: node_records[4 * number + 3], children }
    }

    /// Inside out: what stands between the tags first.
    pub fn text(&self) -> String {
        let name = if self.label == 0 { '_' } else { self.label as char };
        let inside: String = self.children.iter().map(Element::text).collect();
        match inside.as_str() {
            "" => format!("<{name}/>"),
            _ => format!("<{name}>{inside}</{name}>"),
        }
    }

    /// The document node, then each element as its tag opens.
    pub fn records(&self) -> Vec<u8> {
        let mut records = vec![1, 0, 0, 0];
        self.add_records(0, &mut records);
        records
    }

    /// An element has its number before those in it.
    fn add_records(&self, parent: u8, records: &mut Vec<u8>) {
        let own = (records.len() / 4) as u8;
        records.extend([1, own, parent, self.label]);
        self.children.iter().for_each(|child| child.add_records(own, records));
    }
}

/// Every tree of this many elements whose labels are of these.
pub fn trees(elements: usize, labels: &[u8]) -> Vec<Element> {
    let of_row =
        |children: Vec<Element>| labels.iter().map(move |&label| Element { label, children: children.clone() });
    rows(elements - 1, labels).into_iter().flat_map(of_row).collect()
}

/// Every row of trees that has this many elements in all: a first tree, and a row behind it.
fn rows(elements: usize, labels: &[u8]) -> Vec<Vec<Element>> {
    if elements == 0 {
        return vec![Vec::new()];
    }
    let mut all = Vec::new();
    for of_first in 1..=elements {
        let behind = rows(elements - of_first, labels);
        for first in trees(of_first, labels) {
            all.extend(behind.iter().map(|row| [&[first.clone()], row.as_slice()].concat()));
        }
    }
    all
}

/// Catalan's numbers: how many ordered trees there are of 1, 2, 3 elements and so on, without labels.
pub const CATALAN: [usize; 7] = [1, 1, 2, 5, 14, 42, 132];
