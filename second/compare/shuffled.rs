//! Shuffled papers (document 02, request (ii)): what must come up in them.

pub const SHUFFLES: [&str; 17] = [
    "reordered tree",
    "reordered none",
    "reordered spent",
    "reordered and refused with the same number",
    "reordered and refused with another number",
    "reordered and still too long",
    "reordered and met",
    "reordered and unmet at another position",
    "reordered and unmet of another kind",
    "reordered, the answer refused",
    "renumbered tree",
    "renumbered none",
    "renumbered, one of them spent",
    "renumbered tree with another count",
    "renumbered none with another count",
    "renumbered with another n",
    "renumbered with another answer",
];
