//! Random lists of centres, and all that is asked about each.

use crate::draws::{limits, shown, wrong_in_list, Limits};
use crate::{disagree, Comparison};
use questions::centres::{any_session, number, sound_session, Session, SPOILINGS};
use second::verdict::DrawVerdict;
use second::Refusal;

impl Comparison {
    /// One sound list: draws at its limits, the same with one thing wrong, and draws in turn; and a list of any numbers.
    pub fn draw_round(&mut self) {
        let records = self.random.pick(&[0, 1, 2, 2, 3, 3, 4, 5, 6, 7, 8, 8]);
        let session = sound_session(&mut self.random, records);
        if !wrong_in_list(&session.centres, session.total).is_empty() {
            disagree("sound lists", &format!("one that is not sound\n{}", shown(&session, 0, 0)));
        }
        for centre in 0..=records {
            self.draws_at_limits("draws at the limits of sound lists", &session, centre);
        }
        self.draws_by_no_centre(&session);
        self.spoilt(&session);
        let any = any_session(&mut self.random);
        let centre = self.random.below(any.centres.len() + 1);
        self.draws_at_limits("draws from lists of any numbers", &any, centre);
        if records > 0 {
            self.draws_in_turn(session.clone());
            self.the_others_first(session);
        }
    }

    /// At, one below and one above each limit of the centre; and amounts that in 32 bits would lead back below it.
    fn draws_at_limits(&mut self, sort: &'static str, session: &Session, centre: usize) {
        let mut amounts = vec![0, 1, i128::from(u32::MAX), i128::from(number(&mut self.random))];
        if let Some(Limits { guarantee, cap, remaining }) = limits(session, centre) {
            amounts.extend([guarantee, cap, remaining].into_iter().flat_map(|limit| limit - 1..=limit + 1));
            // With these what the centre would have drawn, or what all would be promised, is 2^32 or one more.
            let drawn = i128::from(session.centres[centre].drawn);
            let promised = i128::from(session.total) - remaining;
            amounts.extend([drawn, promised].map(|sum| (1 << 32) - sum).into_iter().flat_map(|more| more..=more + 1));
        }
        amounts.sort();
        amounts.dedup();
        for amount in amounts.into_iter().filter_map(|amount| u32::try_from(amount).ok()) {
            self.draw(sort, session, centre, amount);
        }
    }

    fn draws_by_no_centre(&mut self, session: &Session) {
        const SORT: &str = "draws by no centre of sound lists";
        let low = self.random.below(session.centres.len() + 1);
        let bit = 4 + self.random.below(60);
        for centre in [session.centres.len(), (1 << bit) + low, usize::MAX - low] {
            let amount = number(&mut self.random);
            let said = self.draw(SORT, session, centre, amount);
            if said != DrawVerdict::Refused(Refusal(18)) {
                disagree(SORT, &format!("{said}\n{}", shown(session, centre, amount)));
            }
        }
    }

    /// Every question after 18 would say yes to some of these draws.
    fn spoilt(&mut self, session: &Session) {
        const SORT: &str = "draws from sound lists, spoilt in one place";
        for (how, spoil) in SPOILINGS {
            let mut spoilt = session.clone();
            if spoil(&mut self.random, &mut spoilt).is_none() {
                continue;
            }
            let centre = self.random.below(spoilt.centres.len());
            self.draws_at_limits(SORT, &spoilt, centre);
            let said = self.draw(SORT, &spoilt, centre, 0);
            if said != DrawVerdict::Refused(Refusal(18)) {
                disagree(SORT, &format!("{how}: {said}\n{}", shown(&spoilt, centre, 0)));
            }
            self.draws.note(how);
        }
    }

    /// Draws of any centres one after another; "never above its cap" is the soundness of the list after each.
    fn draws_in_turn(&mut self, mut session: Session) {
        const SORT: &str = "draws in turn";
        for _ in 0..1 + self.random.below(16) {
            let centre = self.random.below(session.centres.len());
            let amount = self.tempting_amount(&session, centre);
            self.draw_in_turn(SORT, &mut session, centre, amount);
        }
        let all_drawn: u64 = session.centres.iter().map(|centre| u64::from(centre.drawn)).sum();
        self.draws.note_if(all_drawn > 0 && all_drawn == u64::from(session.total), "a total drawn to its end");
    }

    /// Mostly near what may be drawn, or a part of it.
    fn tempting_amount(&mut self, session: &Session, centre: usize) -> u32 {
        let Some(Limits { cap, remaining, .. }) = limits(session, centre) else { return 0 };
        let most = u32::try_from(cap.min(remaining)).unwrap_or(0);
        match self.random.below(6) {
            0 => most,
            1 => most.saturating_add(1),
            2 => most / 2,
            3 => most.min(self.random.below(4) as u32),
            4 => (self.random.next() % (u64::from(most) + 1)) as u32,
            _ => number(&mut self.random),
        }
    }

    /// "From a sound list every centre can always draw up to its guarantee, whatever the others did": they take all they can, and one more is
    /// refused them.
    fn the_others_first(&mut self, mut session: Session) {
        const SORT: &str = "draws after the others took what they could";
        let last = self.random.below(session.centres.len());
        let mut others: Vec<usize> = (0..session.centres.len()).filter(|&centre| centre != last).collect();
        self.random.shuffle(&mut others);
        for &other in &others {
            self.take_all(SORT, &mut session, other);
        }
        let own = session.centres[last];
        let left = own.guarantee.saturating_sub(own.drawn);
        // In two parts, since it can always draw up to its guarantee.
        for part in [left / 2, left - left / 2] {
            if !self.draw_in_turn(SORT, &mut session, last, part) {
                disagree(SORT, &format!("the guarantee is not given\n{}", shown(&session, last, part)));
            }
        }
        let taken = left > 0 && !others.is_empty();
        self.draws.note_if(taken, "a guarantee drawn to its end after the others took what they could");
        self.take_all(SORT, &mut session, last);
    }

    /// All that cap and total leave to a centre, which is no less than its guarantee; one more is refused.
    fn take_all(&mut self, sort: &'static str, session: &mut Session, centre: usize) {
        let Some(Limits { guarantee, cap, remaining }) = limits(session, centre) else { return };
        let most = cap.min(remaining);
        let amount = u32::try_from(most).ok().filter(|_| most >= guarantee);
        let is_granted = amount.is_some_and(|amount| self.draw_in_turn(sort, session, centre, amount));
        if !is_granted || self.draw_in_turn(sort, session, centre, 1) {
            disagree(sort, &format!("not all that is left, or more\n{}", shown(session, centre, 1)));
        }
    }
}
