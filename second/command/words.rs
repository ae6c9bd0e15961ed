//! The words of refusals, as they stand in include/cudreth.h (`cudreth_question_words`).

pub fn of_question(number: u8) -> &'static str {
    match number {
        1 => "the constraint file has more than 1,024 bytes",
        2 => "the length of the constraint file is not a multiple of 4",
        3 => "the kind of a constraint record is not 1 to 9",
        4 => "a constraint record names a variable above 15",
        5 => "a label record has the label 0",
        6 => "a byte that the record's kind does not use is not 0",
        8 => "the length of the answer file, or of the node records, is not a multiple of 4",
        9 => "an answer record is neither node nor place, or a node comes after a place, or a record to be written as XML is no node",
        10 => "there are not 2 to 64 node records",
        11 => "a node's number is not its position or its parent is not smaller, or node 0 is not blank with parent 0 and one child",
        12 => "the places are not variables 0 to n-1 in order, each on a node of the tree, fourth byte 0",
        13 => "the text is not 1 to 8 lines of paths, each ended by byte 10, in at most 1,024 bytes",
        14 => "the paths need more than 16 variables",
        15 => "a label to be written as XML is neither 0 nor a letter",
        16 => "the text is not one that a tree of at most 64 nodes, the document node counted, is written as",
        // The command lends buffers that are long enough, and draws for no centre.
        _ => panic!("question {number} is never asked of the command"),
    }
}
