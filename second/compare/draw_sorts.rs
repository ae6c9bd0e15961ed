//! Draws by centres: what of them came up, and what must.

use crate::draws::{limits, promised};
use crate::Comparison;
use questions::centres::Session;

pub const DRAWS: [&str; 48] = [
    // Orders of questions: a draw that fails both gets the first.
    "18 before 19",
    "18 before 20",
    "19 before 20",
    // Granted.
    "granted a draw of 0",
    "granted below the guarantee",
    "granted up to the guarantee",
    "granted above the guarantee",
    "granted one below the cap",
    "granted up to the cap",
    "granted one less than remains",
    "granted all that remains",
    "granted the largest number there is",
    "granted from 1 record",
    "granted from 8 records",
    "granted, the caps together above 2^32",
    "granted to a centre whose guarantee was drawn already",
    // Refused, with nothing wrong but this.
    "18 by a guarantee above its cap",
    "18 by a drawn amount above its cap",
    "18 by a sum above the total",
    "18 by more than 8 records",
    "18 by no such centre",
    "19 by the cap",
    "20 by what remains",
    // More of these, by numbers.
    "18 by a sum one above the total",
    "18 by a sum that is not above the total in 32 bits",
    "18 by a sum above 2^33",
    "18 by 9 records",
    "18 by records that a byte counts as at most 8",
    "18 by no record",
    "18 by the number behind the last centre",
    "18 by a number that is a centre's in 32 bits",
    "18 by a number that is a centre's in 8 bits",
    "18 by a number that is a centre's but for its highest bits",
    "18 of a draw of 0",
    "19 by one above the cap",
    "19 by a sum that is within the cap in 32 bits",
    "20 by one more than remains",
    "20 where nothing remains",
    "20 by the undrawn guarantees of the others alone",
    "20 by what the others have drawn alone",
    "20 by a sum that is not above the total in 32 bits",
    // A sound list with one thing wrong.
    "spoilt by a guarantee above its cap",
    "spoilt by a drawn amount above its cap",
    "spoilt by a sum above the total",
    "spoilt by a sum above the total by 2^32 or more",
    "spoilt by more than 8 records",
    // In turn.
    "a guarantee drawn to its end after the others took what they could",
    "a total drawn to its end",
];

impl Comparison {
    /// The order of the questions where more than one says no, and what is wrong where it is one thing alone. By numbers also where a later
    /// question says no too: what is far above 32 bits is above all limits.
    pub fn note_draw(&mut self, session: &Session, centre: usize, amount: u32, wrong: &[(u8, &'static str)]) {
        match wrong {
            [] => self.note_granted(session, centre, amount),
            [(question, what)] => self.draws.note(&format!("{question} by {what}")),
            [(first, _), .., (last, _)] => self.draws.note_if_asked_for(&format!("{first} before {last}")),
        }
        match wrong {
            [(18, what)] | [(18, what), (19 | 20, _), ..] => self.note_18(session, centre, amount, what),
            [(19, _), ..] => self.note_19(session, centre, amount),
            [(20, _)] => self.note_20(session, centre, amount),
            _ => {}
        }
    }

    fn note_granted(&mut self, session: &Session, centre: usize, amount: u32) {
        let (Some(before), own) = (limits(session, centre), session.centres[centre]) else { return };
        let drawn = i128::from(amount);
        let draws = &mut self.draws;
        draws.note_if(amount == 0, "granted a draw of 0");
        draws.note_if(amount > 0 && drawn < before.guarantee, "granted below the guarantee");
        draws.note_if(amount > 0 && drawn == before.guarantee, "granted up to the guarantee");
        draws.note_if(amount > 0 && drawn > before.guarantee, "granted above the guarantee");
        let beyond = amount > 0 && own.guarantee > 0 && before.guarantee <= 0;
        draws.note_if(beyond, "granted to a centre whose guarantee was drawn already");
        draws.note_if(drawn + 1 == before.cap, "granted one below the cap");
        draws.note_if(amount > 0 && drawn == before.cap, "granted up to the cap");
        draws.note_if(drawn + 1 == before.remaining, "granted one less than remains");
        draws.note_if(amount > 0 && drawn == before.remaining, "granted all that remains");
        draws.note_if(own.drawn.checked_add(amount) == Some(u32::MAX), "granted the largest number there is");
        draws.note_if(session.centres.len() == 1, "granted from 1 record");
        draws.note_if(session.centres.len() == 8, "granted from 8 records");
        let caps: u64 = session.centres.iter().map(|centre| u64::from(centre.cap)).sum();
        draws.note_if(caps >> 32 != 0, "granted, the caps together above 2^32");
    }

    fn note_18(&mut self, session: &Session, centre: usize, amount: u32, what: &str) {
        let draws = &mut self.draws;
        draws.note_if(amount == 0, "18 of a draw of 0");
        let (records, total) = (session.centres.len(), i128::from(session.total));
        match what {
            "a sum above the total" => {
                let sum = promised(&session.centres);
                draws.note_if(sum == total + 1, "18 by a sum one above the total");
                draws.note_if(sum % (1 << 32) <= total, "18 by a sum that is not above the total in 32 bits");
                draws.note_if(sum > 1 << 33, "18 by a sum above 2^33");
            }
            "more than 8 records" => {
                draws.note_if(records == 9, "18 by 9 records");
                draws.note_if(records % 256 <= 8, "18 by records that a byte counts as at most 8");
            }
            "no such centre" => {
                draws.note_if(records == 0, "18 by no record");
                draws.note_if(records > 0 && centre == records, "18 by the number behind the last centre");
                draws.note_if(centre % (1 << 32) < records, "18 by a number that is a centre's in 32 bits");
                draws.note_if(centre % (1 << 8) < records, "18 by a number that is a centre's in 8 bits");
                let in_60_bits = centre % (1 << 60);
                draws.note_if(in_60_bits < records, "18 by a number that is a centre's but for its highest bits");
            }
            _ => {}
        }
    }

    fn note_19(&mut self, session: &Session, centre: usize, amount: u32) {
        let (Some(before), own) = (limits(session, centre), session.centres[centre]) else { return };
        self.draws.note_if(i128::from(amount) == before.cap + 1, "19 by one above the cap");
        let in_32_bits = own.drawn.wrapping_add(amount);
        self.draws.note_if(in_32_bits <= own.cap, "19 by a sum that is within the cap in 32 bits");
    }

    fn note_20(&mut self, session: &Session, centre: usize, amount: u32) {
        let Some(before) = limits(session, centre) else { return };
        let (total, drawn) = (i128::from(session.total), i128::from(amount));
        let draws = &mut self.draws;
        draws.note_if(drawn == before.remaining + 1, "20 by one more than remains");
        draws.note_if(before.remaining == 0, "20 where nothing remains");
        let all_drawn: i128 = session.centres.iter().map(|centre| i128::from(centre.drawn)).sum();
        draws.note_if(all_drawn + drawn <= total, "20 by the undrawn guarantees of the others alone");
        let undrawn = total - before.remaining - all_drawn;
        draws.note_if(undrawn == 0, "20 by what the others have drawn alone");
        let sum = total - before.remaining + drawn;
        draws.note_if(sum % (1 << 32) <= total, "20 by a sum that is not above the total in 32 bits");
    }
}
