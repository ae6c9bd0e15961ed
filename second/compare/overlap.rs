//! The chain join's overlap (document 02, request (ix)): the archive's own answers held to those by the rules of before, under one allowance;
//! what of it came up, and what must.

use crate::rounds::Solved;
use crate::{disagree, Comparison};
use second::search::{Rules, Trace};
use second::verdict::{hex, SolverVerdict};
use second::LEAST_BUFFER;
use std::collections::BTreeSet;

pub const OVERLAP: [&str; 18] = [
    "a tree with a smaller count",
    "none with a smaller count",
    "a tree with the same count",
    "none with the same count",
    "spent that becomes a tree",
    "spent that becomes none",
    "spent by both rules",
    "a tree by the second alternative of a chain join",
    "a line ended by the differ of a chain join's second alternative",
    "a second alternative of a chain join that clashes at once, before with below",
    "a small set with a smaller count by third joins, over 4 variables",
    "a small set with a smaller count by third joins, over 5 variables",
    "a small set with a smaller count by parent joins",
    "a small set with a smaller count by fourth joins",
    "a random tree with a smaller count",
    "a random none with a smaller count",
    "a random spent that becomes a verdict",
    "a damaged question refused as before",
];

/// What the second solver says by the rules of before.
pub fn before_nine(file: &[u8], buffer: usize, allowance: u32) -> SolverVerdict {
    second::solve_by(Rules::BeforeNine, file, buffer, allowance).0
}

/// What the rules of before say where the allowance does not end the search; nothing if that was not found out.
type Enough<'a> = Option<&'a SolverVerdict>;

impl Comparison {
    pub fn note_overlap(&mut self, trace: &Trace) {
        self.overlap.note_if(trace.found_by_second_of_chain(), "a tree by the second alternative of a chain join");
        self.overlap.note_if(trace.ended_by_overlap, "a line ended by the differ of a chain join's second alternative");
        self.overlap.note_if(
            trace.second_of_chain_crossed(),
            "a second alternative of a chain join that clashes at once, before with below",
        );
    }

    /// The archive's own answer, held to what the request says of both; the second side's by the new rules is compared elsewhere.
    pub fn hold_to_before_nine(
        &mut self,
        file: &[u8],
        buffer: usize,
        allowance: u32,
        before: &SolverVerdict,
        enough: Enough,
    ) -> SolverVerdict {
        const SORT: &str = "questions by the rules of before (ix)";
        let now = archive::solved(file, buffer, allowance).unwrap_or_else(|how| disagree(SORT, &how.0));
        if !is_kept(before, &now, allowance, enough) {
            let question = format!("allowance {allowance}, buffer {buffer}\nconstraints {}", hex(file));
            let enough = enough.map_or("not known".to_string(), |enough| enough.to_string());
            disagree(SORT, &format!("{question}\nbefore  {before}\narchive {now}\nbefore, unspent: {enough}"));
        }
        self.count(SORT, 1);
        if let Some(what) = what_became_of(before, &now) {
            self.overlap.note(what);
        }
        now
    }

    /// Under each allowance both rules are run anew.
    pub fn hold_under_allowances(&mut self, file: &[u8], before: &SolverVerdict, now: &SolverVerdict) {
        let (Some(was), Some(is)) = (before.unspent_count(), now.unspent_count()) else { return };
        for allowance in allowances_around(was, is) {
            let under = before_nine(file, LEAST_BUFFER, allowance);
            self.solve("allowances around both counts", file, LEAST_BUFFER, allowance);
            self.hold_to_before_nine(file, LEAST_BUFFER, allowance, &under, Some(before));
        }
    }

    /// A random question in whose search a second alternative of a chain join was entered; else both rules give one search.
    pub fn solved_by_both_rules(&mut self, solved: &Solved) {
        const MORE: u32 = 8;
        let under = before_nine(&solved.file, LEAST_BUFFER, solved.allowance);
        let more = match under {
            SolverVerdict::Spent { .. } if solved.verdict.unspent_count().is_some() => {
                before_nine(&solved.file, LEAST_BUFFER, solved.allowance.saturating_mul(MORE))
            }
            _ => under.clone(),
        };
        let enough = Some(&more).filter(|more| more.unspent_count().is_some());
        self.hold_to_before_nine(&solved.file, LEAST_BUFFER, solved.allowance, &under, enough);
        match (&under, &solved.verdict) {
            (SolverVerdict::Tree { count: was, .. }, SolverVerdict::Tree { count, .. }) => {
                self.overlap.note_if(count < was, "a random tree with a smaller count");
            }
            (SolverVerdict::None { count: was }, SolverVerdict::None { count }) => {
                self.overlap.note_if(count < was, "a random none with a smaller count");
            }
            _ => {}
        }
        if let Some(enough) = enough.filter(|enough| enough.unspent_count() > solved.verdict.unspent_count()) {
            self.overlap.note("a random spent that becomes a verdict");
            self.hold_under_allowances(&solved.file, enough, &solved.verdict);
        }
    }

    /// Questions are asked as before.
    pub fn damaged_by_both_rules(&mut self, damaged: &Solved, buffer: usize) {
        if let SolverVerdict::Refused(_) = damaged.verdict {
            let before = before_nine(&damaged.file, buffer, damaged.allowance);
            self.hold_to_before_nine(&damaged.file, buffer, damaged.allowance, &before, None);
            self.overlap.note("a damaged question refused as before");
        }
    }
}

/// "Under one allowance a tree stays that tree, a none stays none and no count rises"; a spent may become what it would have been.
fn is_kept(before: &SolverVerdict, now: &SolverVerdict, allowance: u32, enough: Enough) -> bool {
    use SolverVerdict::{None, Refused, Spent, Tree};
    match (before, now) {
        (Tree { count: was, answer: tree }, Tree { count, answer }) => count <= was && answer == tree,
        (None { count: was }, None { count }) => count <= was,
        (Spent { .. }, Spent { count }) => *count == allowance,
        (Spent { .. }, Tree { count, answer }) => {
            let is_that = |enough: &SolverVerdict| matches!(enough, Tree { answer: tree, .. } if tree == answer);
            *count <= allowance && enough.is_none_or(is_that)
        }
        (Spent { .. }, None { count }) => {
            *count <= allowance && enough.is_none_or(|enough| matches!(enough, None { .. }))
        }
        (Refused(was), Refused(is)) => was == is,
        _ => false,
    }
}

fn what_became_of(before: &SolverVerdict, now: &SolverVerdict) -> Option<&'static str> {
    use SolverVerdict::{None, Spent, Tree};
    match (before, now) {
        (Tree { count: was, .. }, Tree { count, .. }) if count < was => Some("a tree with a smaller count"),
        (Tree { .. }, Tree { .. }) => Some("a tree with the same count"),
        (None { count: was }, None { count }) if count < was => Some("none with a smaller count"),
        (None { .. }, None { .. }) => Some("none with the same count"),
        (Spent { .. }, Tree { .. }) => Some("spent that becomes a tree"),
        (Spent { .. }, None { .. }) => Some("spent that becomes none"),
        (Spent { .. }, Spent { .. }) => Some("spent by both rules"),
        _ => Option::None,
    }
}

/// Around the count of before and the one of now, and between the two.
fn allowances_around(was: u32, is: u32) -> BTreeSet<u32> {
    let mut allowances = BTreeSet::from([0, u32::MAX]);
    for count in [was, is, is / 2 + was / 2] {
        allowances.extend([count.saturating_sub(1), count, count + 1]);
    }
    allowances
}
