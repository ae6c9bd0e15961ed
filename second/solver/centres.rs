//! Centres that share the machine (document 02, request (viii)): the list of their records, and a draw from it.

use crate::Refusal;

/// "Up to 8 exam centres."
pub const MOST_CENTRES: usize = 8;

/// "For each a guarantee, a cap and the amount drawn, of 32 bits like the total."
#[derive(Clone, Copy, PartialEq, Eq, Debug)]
pub struct Centre {
    pub guarantee: u32,
    pub cap: u32,
    pub drawn: u32,
}

/// The list after the draw, or the number of the first question that says no. Sums are of wide numbers, as sums on paper are.
pub fn draw(centres: &[Centre], total: u32, centre: usize, amount: u32) -> Result<Vec<Centre>, Refusal> {
    if !is_sound(centres, total) || centres.len() > MOST_CENTRES || centre >= centres.len() {
        return Err(Refusal(18));
    }
    let would_have_drawn = centres[centre].drawn as u128 + amount as u128;
    if would_have_drawn > centres[centre].cap as u128 {
        return Err(Refusal(19));
    }
    if amount as u128 > remaining(centres, total, centre) {
        return Err(Refusal(20));
    }
    let mut after = centres.to_vec();
    after[centre].drawn += amount;
    Ok(after)
}

/// "No guarantee and no drawn amount exceeds its cap, and the larger of guarantee and drawn, summed over the centres, is at most the total."
pub fn is_sound(centres: &[Centre], total: u32) -> bool {
    let within_cap = |centre: &Centre| centre.guarantee <= centre.cap && centre.drawn <= centre.cap;
    let sum: u128 = centres.iter().map(|centre| centre.guarantee.max(centre.drawn) as u128).sum();
    centres.iter().all(within_cap) && sum <= total as u128
}

/// "What remains after the undrawn guarantees of the others": the total, less what all have drawn, less what the others have yet to draw of
/// their guarantees. The list is sound, so that this is not below 0.
pub fn remaining(centres: &[Centre], total: u32, centre: usize) -> u128 {
    let drawn: u128 = centres.iter().map(|centre| centre.drawn as u128).sum();
    let others = centres.iter().enumerate().filter(|&(other, _)| other != centre);
    let undrawn: u128 = others.map(|(_, other)| other.guarantee.saturating_sub(other.drawn) as u128).sum();
    total as u128 - drawn - undrawn
}
