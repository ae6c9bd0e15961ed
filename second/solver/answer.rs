//! Answer files: questions 8 to 12, and the writer. Node records may also stand alone (document 02, request (vii)).

use crate::tree::{Assignment, Node, Tree, OUTERMOST_ELEMENT};
use crate::Refusal;

const NODE_RECORD: u8 = 1;
const PLACE_RECORD: u8 = 2;

/// The most nodes that a tree in a file may have, the document node counted.
pub const MOST_NODES: usize = 64;

pub fn read(file: &[u8], variables: usize) -> Result<(Tree, Assignment), Refusal> {
    let records = whole_records(file)?;
    let number_of_nodes = records.iter().take_while(|record| record[0] == NODE_RECORD).count();
    let (nodes, places) = records.split_at(number_of_nodes);
    if places.iter().any(|record| record[0] != PLACE_RECORD) {
        return Err(Refusal(9));
    }
    let tree = read_tree(nodes)?;
    let in_order = places.iter().enumerate().all(|(position, record)| {
        let (variable, node) = (record[1] as usize, record[2] as usize);
        variable == position && node < nodes.len() && record[3] == 0
    });
    if places.len() != variables || !in_order {
        return Err(Refusal(12));
    }
    let assignment = Assignment(places.iter().map(|record| Node(record[2] as usize)).collect());
    Ok((tree, assignment))
}

/// "The writer takes node records alone, asks 8 to 11 of them first, and gives 9 for a place record."
pub fn read_nodes(file: &[u8]) -> Result<Tree, Refusal> {
    let records = whole_records(file)?;
    if records.iter().any(|record| record[0] != NODE_RECORD) {
        return Err(Refusal(9));
    }
    read_tree(&records)
}

/// Question 8.
fn whole_records(file: &[u8]) -> Result<Vec<&[u8]>, Refusal> {
    if file.len() % 4 != 0 {
        return Err(Refusal(8));
    }
    Ok(file.chunks(4).collect())
}

/// Questions 10 and 11.
fn read_tree(nodes: &[&[u8]]) -> Result<Tree, Refusal> {
    if !(2..=MOST_NODES).contains(&nodes.len()) {
        return Err(Refusal(10));
    }
    if !nodes.iter().enumerate().all(|(position, record)| is_well_formed(position, record)) {
        return Err(Refusal(11));
    }
    let parent_of = |(position, record): (usize, &&[u8])| (position > 0).then(|| Node(record[2] as usize));
    Ok(Tree {
        parents: nodes.iter().enumerate().map(parent_of).collect(),
        labels: nodes.iter().map(|record| record[3]).collect(),
    })
}

/// Question 11 of one node record. Node 0 is blank, and has no second child.
fn is_well_formed(position: usize, record: &[u8]) -> bool {
    let (own, parent, label) = (record[1] as usize, record[2] as usize, record[3]);
    own == position
        && match position {
            0 => parent == 0 && label == 0,
            _ => parent < position && (parent > 0 || Node(position) == OUTERMOST_ELEMENT),
        }
}

pub fn write(tree: &Tree, assignment: &Assignment) -> Vec<u8> {
    let mut file = write_nodes(tree);
    for (variable, node) in assignment.0.iter().enumerate() {
        file.extend([PLACE_RECORD, variable as u8, node.0 as u8, 0]);
    }
    file
}

/// The node records alone.
pub fn write_nodes(tree: &Tree) -> Vec<u8> {
    let mut file = Vec::new();
    for (number, parent) in tree.parents.iter().enumerate() {
        // Node 0 writes 0 as its parent.
        let parent = parent.unwrap_or(Node(0));
        file.extend([NODE_RECORD, number as u8, parent.0 as u8, tree.labels[number]]);
    }
    file
}
