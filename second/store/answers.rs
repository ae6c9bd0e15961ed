//! Answers to the marker, in which labels 65 to 90 are asked or drawn.

use crate::share::{is_full, keep, print, share, Share};
use questions::capitals::{apart, has_both_cases, relabelled_answer, relabelled_question};
use questions::{planted, random_assignment, random_constraint, random_tree, Mix, Random};
use second::constraint::{self, number_of_variables, Constraint};
use second::tree::{Assignment, Tree, DOCUMENT_NODE};
use second::verdict::{hex, MarkerVerdict};
use second::{answer, Refusal};

/// What was drawn, what it was drawn for, what was done to its file, and what the marker says.
struct Asked {
    constraints: Vec<Constraint>,
    tree: Tree,
    assignment: Assignment,
    damage: Damage,
    verdict: MarkerVerdict,
    /// What it would say if case counted.
    if_case_counted: MarkerVerdict,
}

/// A letter in place of another byte.
#[derive(Clone, Copy, PartialEq, Eq)]
enum Damage {
    Nothing,
    DocumentNode,
    Place,
    Kind,
}

const DAMAGES: [Damage; 3] = [Damage::DocumentNode, Damage::Place, Damage::Kind];

pub fn store() {
    println!("# Made by 'target/second/store mark', that is, by the second marker alone. One question a line:");
    println!("# name, mark, constraint file in hex, answer file in hex; met, unmet with position and kind, or refused with the number.");
    let mut shares = shares();
    let mut random = Random::new(2036);
    while !is_full(&shares) {
        let variables = 1 + random.below(8);
        let nodes = 2 + random.below(10);
        let records = 1 + random.below(8);
        let mix = Mix::random(&mut random);
        let tree = random_tree(&mut random, nodes);
        let mut assignment = random_assignment(&mut random, variables, &tree);
        let mut constraints = planted(&mut random, &tree, &assignment, records, &mix);
        if random.one_in(2) {
            let at = random.below(constraints.len() + 1);
            constraints.insert(at, random_constraint(&mut random, variables, &mix));
        }
        assignment.0.truncate(number_of_variables(&constraints));
        store_drawn(&mut random, &mut shares, constraints, tree, assignment);
    }
    print(&shares);
}

fn store_drawn(
    random: &mut Random,
    shares: &mut [Share<Asked>],
    constraints: Vec<Constraint>,
    tree: Tree,
    assignment: Assignment,
) {
    let damage = if random.one_in(6) { random.pick(&DAMAGES) } else { Damage::Nothing };
    let file = constraint::write(&constraints);
    let answer_file = damaged(random, &tree, &assignment, damage);
    let verdict = second::mark(&file, &answer_file);
    let if_case_counted = second::mark(&relabelled_question(&file, apart), &relabelled_answer(&answer_file, apart));
    let line = format!("mark {} {} {verdict}", hex(&file), hex(&answer_file));
    keep(shares, &Asked { constraints, tree, assignment, damage, verdict, if_case_counted }, line);
}

fn damaged(random: &mut Random, tree: &Tree, assignment: &Assignment, damage: Damage) -> Vec<u8> {
    let mut file = answer::write(tree, assignment);
    let node = random.below(tree.parents.len());
    match damage {
        Damage::Nothing => {}
        Damage::DocumentNode => file[3] = random.pick(&[65, 90, 97]),
        Damage::Place => file.extend([2, assignment.0.len() as u8, 1, 65]),
        Damage::Kind => file[4 * node] = random.pick(&[65, 97]),
    }
    file
}

fn shares() -> Vec<Share<Asked>> {
    let refused = |damage, question| {
        move |asked: &Asked| asked.damage == damage && asked.verdict == MarkerVerdict::Refused(Refusal(question))
    };
    let unmet = |fits: fn(u8, u8) -> bool| {
        move |asked: &Asked| unmet_label(asked).is_some_and(|(label, drawn)| fits(label, drawn))
    };
    vec![
        share("met-capital-drawn", 8, |asked| met(asked) && met_by(asked, small_letter, capital)),
        share("met-capital-asked", 8, |asked| met(asked) && met_by(asked, capital, small_letter)),
        share("met-both-cases", 8, |asked| met(asked) && is_asked_in_both_cases(asked)),
        share("met-capital", 4, |asked| met(asked) && met_by(asked, capital, capital)),
        share("unmet-later", 6, |asked| is_unmet_later(asked) && unmet_label(asked).is_none()),
        share("unmet-later-label", 6, |asked| is_unmet_later(asked) && unmet_label(asked).is_some()),
        share("unmet-capital-drawn", 6, unmet(|label, drawn| small_letter(label) && capital(drawn))),
        share("unmet-capital-asked", 6, unmet(|label, drawn| capital(label) && small_letter(drawn))),
        share("unmet-two-capitals", 4, unmet(|label, drawn| capital(label) && capital(drawn))),
        share("unmet-beside", 8, unmet(|label, drawn| label.abs_diff(drawn) == 32)),
        share("unmet-blank", 4, unmet(|label, drawn| capital(label) && drawn == 0)),
        share("unmet-document-node", 4, is_unmet_on_document_node),
        share("refused-11-document-node", 5, refused(Damage::DocumentNode, 11)),
        share("refused-12", 4, refused(Damage::Place, 12)),
        share("refused-9", 4, refused(Damage::Kind, 9)),
    ]
}

fn capital(label: u8) -> bool {
    label.is_ascii_uppercase()
}

fn small_letter(label: u8) -> bool {
    label.is_ascii_lowercase()
}

fn met(asked: &Asked) -> bool {
    asked.verdict == MarkerVerdict::Met
}

/// For each label record the label asked and the one drawn.
fn labels(asked: &Asked) -> impl Iterator<Item = (u8, u8)> + '_ {
    asked.constraints.iter().filter_map(|&record| label_and_drawn(asked, record))
}

fn label_and_drawn(asked: &Asked, record: Constraint) -> Option<(u8, u8)> {
    match record {
        Constraint::Label(x, label) => Some((label, asked.tree.label(asked.assignment.node_of(x)))),
        _ => None,
    }
}

fn met_by(asked: &Asked, is_asked: fn(u8) -> bool, is_drawn: fn(u8) -> bool) -> bool {
    labels(asked).any(|(label, drawn)| is_asked(label) && is_drawn(drawn))
}

fn is_asked_in_both_cases(asked: &Asked) -> bool {
    let file = constraint::write(&asked.constraints);
    let answer_file = answer::write(&asked.tree, &asked.assignment);
    [true, false].into_iter().any(|on_one_variable| has_both_cases(&file, &answer_file, on_one_variable))
}

/// Of the first unmet record, if it is a label.
fn unmet_label(asked: &Asked) -> Option<(u8, u8)> {
    match asked.verdict {
        MarkerVerdict::Unmet { position, .. } => label_and_drawn(asked, asked.constraints[position]),
        MarkerVerdict::Met | MarkerVerdict::Refused(_) => None,
    }
}

fn is_unmet_on_document_node(asked: &Asked) -> bool {
    let MarkerVerdict::Unmet { position, .. } = asked.verdict else { return false };
    match asked.constraints[position] {
        Constraint::Label(x, label) => capital(label) && asked.assignment.node_of(x) == DOCUMENT_NODE,
        _ => false,
    }
}

/// A label record before it would be the first, if case counted.
fn is_unmet_later(asked: &Asked) -> bool {
    use MarkerVerdict::Unmet;
    match (asked.verdict, asked.if_case_counted) {
        (Unmet { position, .. }, Unmet { position: earlier, .. }) => earlier < position,
        _ => false,
    }
}
