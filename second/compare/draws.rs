//! Draws by centres (document 02, request (viii)): the archive held to the second side, both to the comparison's own rule, and what the
//! request says of sequences of draws as checks.

use crate::{disagree, Comparison};
use questions::centres::Session;
use second::centres::Centre;
use second::verdict::{list, DrawVerdict};
use second::Refusal;

impl Comparison {
    pub fn draw(&mut self, sort: &'static str, session: &Session, centre: usize, amount: u32) -> DrawVerdict {
        let Session { centres, total } = session;
        let verdict = second::draw(centres, *total, centre, amount);
        if let Err(disagreement) = archive::hold_draw(centres, *total, centre, amount, &verdict) {
            disagree(sort, &disagreement.0);
        }
        let wrong = wrong_in_draw(session, centre, amount);
        let by_rule = match wrong.first() {
            Some(&(question, _)) => DrawVerdict::Refused(Refusal(question)),
            None => DrawVerdict::Granted(with_draw(centres, centre, amount)),
        };
        if verdict != by_rule {
            let how = format!("{verdict}, by the rule {by_rule}\n{}", shown(session, centre, amount));
            disagree(sort, &how);
        }
        let is_granted = matches!(verdict, DrawVerdict::Granted(_));
        if is_granted != is_sound_with_draw(session, centre, amount) {
            disagree(sort, &format!("{verdict}, by the list with the draw added\n{}", shown(session, centre, amount)));
        }
        match verdict {
            DrawVerdict::Granted(_) => self.tally(sort, "draw granted".to_string()),
            DrawVerdict::Refused(Refusal(question)) => self.tally(sort, format!("draw refused {question}")),
        }
        self.note_draw(session, centre, amount, &wrong);
        verdict
    }

    /// A draw from a sound list leaves a sound list; what the centre has drawn grows by the draw or not at all.
    pub fn draw_in_turn(&mut self, sort: &'static str, session: &mut Session, centre: usize, amount: u32) -> bool {
        let DrawVerdict::Granted(after) = self.draw(sort, session, centre, amount) else { return false };
        let before = std::mem::replace(&mut session.centres, after);
        if !wrong_in_list(&session.centres, session.total).is_empty() {
            let how = format!("granted, and the list is not sound\ncentres before {}", list(&before));
            disagree(sort, &format!("{how}\n{}", shown(session, centre, amount)));
        }
        true
    }
}

/// Everything that is wrong with a draw, with the number of its question, in the order in which it is asked: a rule of the comparison's own,
/// which puts each question whatever the others say. What remains is what is not promised to the others and not drawn by the centre itself.
fn wrong_in_draw(session: &Session, centre: usize, amount: u32) -> Vec<(u8, &'static str)> {
    let Session { centres, total } = session;
    let mut wrong: Vec<_> = wrong_in_list(centres, *total).into_iter().map(|what| (18, what)).collect();
    if centres.len() > 8 {
        wrong.push((18, "more than 8 records"));
    }
    match limits(session, centre) {
        None => wrong.push((18, "no such centre")),
        Some(Limits { cap, remaining, .. }) => {
            wrong.extend((i128::from(amount) > cap).then_some((19, "the cap")));
            wrong.extend((i128::from(amount) > remaining).then_some((20, "what remains")));
        }
    }
    wrong
}

/// A draw is granted exactly where the list with the draw added is sound, of at most 8 records, with that centre: such a list was sound before.
fn is_sound_with_draw(session: &Session, centre: usize, amount: u32) -> bool {
    let mut left = i128::from(session.total);
    for (at, record) in session.centres.iter().enumerate() {
        let added = if at == centre { i128::from(amount) } else { 0 };
        let larger = i128::from(record.guarantee).max(i128::from(record.drawn) + added);
        if larger > i128::from(record.cap) {
            return false;
        }
        left -= larger;
    }
    left >= 0 && session.centres.len() < 9 && session.centres.get(centre).is_some()
}

/// What makes a list unsound.
pub fn wrong_in_list(centres: &[Centre], total: u32) -> Vec<&'static str> {
    let answers = [
        ("a guarantee above its cap", centres.iter().any(|centre| centre.cap < centre.guarantee)),
        ("a drawn amount above its cap", centres.iter().any(|centre| centre.cap < centre.drawn)),
        ("a sum above the total", promised(centres) > i128::from(total)),
    ];
    answers.into_iter().filter(|&(_, is_so)| is_so).map(|(what, _)| what).collect()
}

/// What is drawn or kept back for each centre, summed.
pub fn promised(centres: &[Centre]) -> i128 {
    centres.iter().map(larger).sum()
}

fn larger(centre: &Centre) -> i128 {
    i128::from(centre.guarantee).max(i128::from(centre.drawn))
}

/// How much a centre may draw before it comes to each of its limits; below 0 where that is passed.
pub struct Limits {
    pub guarantee: i128,
    pub cap: i128,
    /// The total, less what is promised to the others, less what the centre has drawn.
    pub remaining: i128,
}

pub fn limits(session: &Session, centre: usize) -> Option<Limits> {
    let own = session.centres.get(centre)?;
    let drawn = i128::from(own.drawn);
    let promised_to_others = promised(&session.centres) - larger(own);
    Some(Limits {
        guarantee: i128::from(own.guarantee) - drawn,
        cap: i128::from(own.cap) - drawn,
        remaining: i128::from(session.total) - promised_to_others - drawn,
    })
}

/// The list with the draw added, field by field.
fn with_draw(centres: &[Centre], centre: usize, amount: u32) -> Vec<Centre> {
    let added = |at: usize| if at == centre { amount } else { 0 };
    let record = |(at, before): (usize, &Centre)| Centre { drawn: before.drawn + added(at), ..*before };
    centres.iter().enumerate().map(record).collect()
}

pub fn shown(session: &Session, centre: usize, amount: u32) -> String {
    format!("total {}, centre {centre}, amount {amount}\ncentres {}", session.total, list(&session.centres))
}
