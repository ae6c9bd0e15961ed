//! Seeded lists of centres with their total: sound ones, one thing that makes a list unsound, and any list there may be.

use crate::Random;
use second::centres::{Centre, MOST_CENTRES};

#[derive(Clone)]
pub struct Session {
    pub centres: Vec<Centre>,
    pub total: u32,
}

/// Small, near 2^31, where two make a sum of more than 32 bits, near the largest there is, and any.
pub fn number(random: &mut Random) -> u32 {
    let near = random.below(8) as u32;
    match random.below(5) {
        0 | 1 => near,
        2 => (1 << 31) - 4 + near,
        3 => u32::MAX - near,
        _ => random.next() as u32,
    }
}

fn up_to(random: &mut Random, most: u32) -> u32 {
    (random.next() % (most as u64 + 1)) as u32
}

/// The larger of guarantee and drawn is cut off from what the centres before have left of the total, often all of it.
pub fn sound_session(random: &mut Random, records: usize) -> Session {
    let total = number(random);
    let mut left = total;
    let mut centres = Vec::new();
    for before in 0..records {
        let larger = match random.below(6) {
            0 => 0,
            1 => left,
            2 | 3 => left / (records - before) as u32,
            _ => up_to(random, left),
        };
        left -= larger;
        centres.push(centre_with(random, larger));
    }
    random.shuffle(&mut centres);
    Session { centres, total }
}

fn centre_with(random: &mut Random, larger: u32) -> Centre {
    let smaller = match random.below(4) {
        0 => 0,
        1 => larger,
        2 => larger.saturating_sub(1),
        _ => up_to(random, larger),
    };
    let cap = match random.below(4) {
        0 => larger,
        1 => larger.saturating_add(1 + random.below(4) as u32),
        2 => u32::MAX - up_to(random, (u32::MAX - larger).min(3)),
        _ => larger + up_to(random, u32::MAX - larger),
    };
    let (guarantee, drawn) = if random.one_in(2) { (larger, smaller) } else { (smaller, larger) };
    Centre { guarantee, cap, drawn }
}

/// Any numbers, and up to 10 records.
pub fn any_session(random: &mut Random) -> Session {
    let records = random.below(11);
    let centre = |random: &mut Random| Centre { guarantee: number(random), cap: number(random), drawn: number(random) };
    Session { centres: (0..records).map(|_| centre(random)).collect(), total: number(random) }
}

/// One thing that makes a sound list unsound or too long, and nothing else; not every list can have it.
pub type Spoiling = (&'static str, fn(&mut Random, &mut Session) -> Option<()>);

pub const SPOILINGS: [Spoiling; 5] = [
    ("spoilt by a guarantee above its cap", guarantee_above_cap),
    ("spoilt by a drawn amount above its cap", drawn_above_cap),
    ("spoilt by a sum above the total", sum_above_total),
    ("spoilt by a sum above the total by 2^32 or more", sum_above_total_by_2_to_32),
    ("spoilt by more than 8 records", too_many),
];

fn guarantee_above_cap(random: &mut Random, session: &mut Session) -> Option<()> {
    let centre = some(random, &mut session.centres, |centre| centre.guarantee > centre.drawn)?;
    centre.cap = centre.drawn + up_to(random, centre.guarantee - 1 - centre.drawn);
    Some(())
}

fn drawn_above_cap(random: &mut Random, session: &mut Session) -> Option<()> {
    let centre = some(random, &mut session.centres, |centre| centre.drawn > centre.guarantee)?;
    centre.cap = centre.guarantee + up_to(random, centre.drawn - 1 - centre.guarantee);
    Some(())
}

fn sum_above_total(random: &mut Random, session: &mut Session) -> Option<()> {
    let sum: u32 = session.centres.iter().map(|centre| centre.guarantee.max(centre.drawn)).sum();
    let less = sum.checked_sub(1)?;
    session.total = if random.one_in(2) { less } else { up_to(random, less) };
    Some(())
}

/// In 32 bits the sum would be what it was.
fn sum_above_total_by_2_to_32(random: &mut Random, session: &mut Session) -> Option<()> {
    let half = 1 << 31;
    for _ in 0..2 * random.pick(&[1, 2, 4]) {
        let (guarantee, drawn) = random.pick(&[(half, 0), (0, half), (half, half), (half, 1)]);
        session.centres.push(Centre { guarantee, cap: half, drawn });
    }
    random.shuffle(&mut session.centres);
    (session.centres.len() <= MOST_CENTRES).then_some(())
}

fn too_many(random: &mut Random, session: &mut Session) -> Option<()> {
    let records = random.pick(&[9, 9, 10, 16, 17, 255, 256, 257, 264]);
    let cap = number(random);
    session.centres.resize(records, Centre { guarantee: 0, cap, drawn: 0 });
    Some(())
}

/// One of the centres that are so.
fn some<'a>(random: &mut Random, centres: &'a mut [Centre], is_so: fn(&Centre) -> bool) -> Option<&'a mut Centre> {
    let mut such: Vec<&mut Centre> = centres.iter_mut().filter(|centre| is_so(centre)).collect();
    if such.is_empty() {
        return None;
    }
    Some(such.swap_remove(random.below(such.len())))
}
