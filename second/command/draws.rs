//! Questions and answers drawn by chance, as records.

use questions::capitals::crowded_letters;
use questions::{free, paths, planted, random_assignment, random_tree, Mix, Random};
use second::answer;
use second::constraint::{self, number_of_variables, Constraint};
use second::tree::{Assignment, Node, Tree};
use second::verdict::SolverVerdict;
use second::LEAST_BUFFER;

/// A question that a tree and an assignment meet, with the answer file of them.
pub struct Drawn {
    pub question: Vec<u8>,
    pub right: Vec<u8>,
}

/// Mostly a few records; now and then as many as there may be, or one more.
pub fn planted_question(random: &mut Random) -> Drawn {
    let variables = random.pick(&[1, 2, 3, 4, 6, 9, 16]);
    let nodes = random.pick(&[2, 3, 4, 6, 9, 18, 64]);
    let records = random.pick(&[0, 1, 2, 3, 5, 8, 13, 20, 20]);
    let (mix, tree) = (Mix::random(random), random_tree(random, nodes));
    let assignment = random_assignment(random, variables, &tree);
    let mut constraints = planted(random, &tree, &assignment, records, &mix);
    if random.one_in(60) && !constraints.is_empty() {
        let length = random.pick(&[255, 256, 257, 300]);
        constraints = constraints.iter().copied().cycle().take(length).collect();
    }
    Drawn { right: answer_to(&constraints, &tree, &assignment), question: constraint::write(&constraints) }
}

/// Whose answers are seldom right.
pub fn free_question(random: &mut Random) -> Vec<u8> {
    let (variables, records) = (1 + random.below(6), random.below(12));
    let mix = Mix::random(random);
    constraint::write(&free(random, variables, records, &mix))
}

/// With places for the variables that the question has.
fn answer_to(constraints: &[Constraint], tree: &Tree, assignment: &Assignment) -> Vec<u8> {
    let named = number_of_variables(constraints);
    answer::write(tree, &Assignment(assignment.0[..named].to_vec()))
}

/// An answer that fits a question in its number of places, and is met by chance alone.
pub fn any_answer(random: &mut Random, question: &[u8]) -> Vec<u8> {
    let variables = constraint::read(question).map_or(2, |constraints| number_of_variables(&constraints));
    let nodes = random.pick(&[2, 3, 5, 8]);
    let tree = random_tree(random, nodes);
    let assignment = random_assignment(random, variables, &tree);
    answer::write(&tree, &assignment)
}

/// A right answer with a place or a label changed.
pub fn near_answer(random: &mut Random, question: &[u8], right: &[u8]) -> Vec<u8> {
    let variables = constraint::read(question).map_or(0, |constraints| number_of_variables(&constraints));
    let Ok((mut tree, mut assignment)) = answer::read(right, variables) else { return right.to_vec() };
    let nodes = tree.parents.len();
    match assignment.0.len() {
        places @ 1.. if random.one_in(2) => assignment.0[random.below(places)] = Node(random.below(nodes)),
        _ => tree.labels[1 + random.below(nodes - 1)] = random.pick(b"\0abAB\x01\xff"),
    }
    answer::write(&tree, &assignment)
}

/// A text of paths, at times at the limits of variables and of bytes, and of lines.
pub fn paths_text(random: &mut Random) -> Vec<u8> {
    let mix = paths::PathMix::random(random);
    let lines = random.pick(&[1, 1, 1, 2, 3, 8, 9]);
    let steps = random.pick(&[1, 2, 4, 8, 14]);
    let mut lines = paths::random_lines(random, lines, steps, &mix);
    match random.below(8) {
        0 | 1 => {
            let variables = random.pick(&[15, 16, 17, 18, 25]);
            paths::pad_to_variables(random, &mut lines, variables, &mix);
        }
        2 => {
            let bytes = random.pick(&[1_020, 1_024, 1_025, 1_030]);
            paths::pad_to_bytes(random, &mut lines, bytes);
        }
        3 => {
            let depth = random.pick(&[3, 20, 60, 100, 130]);
            lines.push(paths::nested(random, depth, &mix));
        }
        _ => {}
    }
    second::path::text_of(&lines)
}

/// The second solver's answer to a question, where it needs few choices.
pub fn solved(question: &[u8]) -> Option<Vec<u8>> {
    match second::solve(question, LEAST_BUFFER, 20) {
        SolverVerdict::Tree { answer, .. } => Some(answer),
        _ => None,
    }
}

/// A question on letters, in either case.
pub fn letters(random: &mut Random) -> Vec<u8> {
    constraint::write(&crowded_letters(random))
}
