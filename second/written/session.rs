//! Draws in the line format of `examples/`: a session of centres, and its draws one after another.

use crate::{Expected, Question};
use second::centres::Centre;
use second::verdict::DrawVerdict;
use second::Refusal;

/// A session as far as it has been read.
#[derive(Default)]
pub struct Session {
    total: Option<u32>,
    centres: Vec<Centre>,
    draws: Vec<Draw>,
}

struct Draw {
    centre: usize,
    amount: u32,
    gives: Vec<String>,
    /// What the centres have drawn after it, where it is granted.
    drawn: Vec<u32>,
}

impl Session {
    pub fn has_draws(&self) -> bool {
        !self.draws.is_empty()
    }

    /// Reads a line if it is one of a session's; what is given belongs to the draw before it.
    pub fn read_line(&mut self, words: &[&str]) -> Option<()> {
        match (words, self.draws.last_mut()) {
            (["total", total], None) => self.total = Some(total.parse().ok()?),
            (["centre", record @ ..], None) => self.centres.push(centre_of(record)?),
            (["times", times, "centre", record @ ..], None) => {
                self.centres.extend(vec![centre_of(record)?; times.parse().ok()?]);
            }
            (["draw", centre, amount], _) => {
                let (centre, amount) = (centre.parse().ok()?, amount.parse().ok()?);
                self.draws.push(Draw { centre, amount, gives: Vec::new(), drawn: Vec::new() });
            }
            (["gives", verdict @ ..], Some(draw)) => draw.gives = verdict.iter().map(|word| word.to_string()).collect(),
            (["drawn", amounts @ ..], Some(draw)) => {
                draw.drawn = amounts.iter().map(|amount| amount.parse().ok()).collect::<Option<_>>()?;
            }
            _ => return None,
        }
        Some(())
    }

    /// A question for each draw, from the list that the draws before it leave.
    pub fn questions(&self, name: &str) -> Option<Vec<Question>> {
        let mut centres = self.centres.clone();
        let mut questions = Vec::new();
        for (at, draw) in self.draws.iter().enumerate() {
            let name = if at == 0 { name.to_string() } else { format!("{name}, draw {}", at + 1) };
            let verdict = draw.verdict(&centres)?;
            let after = match &verdict {
                DrawVerdict::Granted(after) => after.clone(),
                DrawVerdict::Refused(_) => centres.clone(),
            };
            let Draw { centre, amount, .. } = *draw;
            let expected = Expected::Draw { centres, total: self.total?, centre, amount, verdict };
            questions.push(Question { name, file: Vec::new(), expected });
            centres = after;
        }
        Some(questions)
    }
}

impl Draw {
    /// Guarantees and caps stay; each centre's amount after a draw that is granted is written.
    fn verdict(&self, before: &[Centre]) -> Option<DrawVerdict> {
        let words: Vec<&str> = self.gives.iter().map(String::as_str).collect();
        match words.as_slice() {
            ["granted"] if self.drawn.len() == before.len() => {
                let after = before.iter().zip(&self.drawn).map(|(centre, &drawn)| Centre { drawn, ..*centre });
                Some(DrawVerdict::Granted(after.collect()))
            }
            ["refused", question] if self.drawn.is_empty() => {
                Some(DrawVerdict::Refused(Refusal(question.parse().ok()?)))
            }
            _ => None,
        }
    }
}

fn centre_of(record: &[&str]) -> Option<Centre> {
    match record {
        [guarantee, cap, drawn] => {
            Some(Centre { guarantee: guarantee.parse().ok()?, cap: cap.parse().ok()?, drawn: drawn.parse().ok()? })
        }
        _ => None,
    }
}
