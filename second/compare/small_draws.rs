//! Draws by centres, whatever the seed: every draw from every small list, from lists of numbers at the limits of 32 bits, from lists of any
//! length, and by numbers that are no centre's.

use crate::{disagree, Comparison};
use questions::centres::Session;
use second::brute::words;
use second::centres::Centre;
use second::verdict::DrawVerdict;
use second::Refusal;
use std::ops::RangeInclusive;

/// Numbers whose sums, two or more of them, go above 32 bits.
const AT_LIMITS: [u32; 4] = [0, 1, 1 << 31, u32::MAX];
const AT_MORE_LIMITS: [u32; 9] = [0, 1, 2, (1 << 31) - 1, 1 << 31, (1 << 31) + 1, u32::MAX - 2, u32::MAX - 1, u32::MAX];

impl Comparison {
    pub fn all_small_draws(&mut self) {
        let up_to = |most: u32| (0..=most).collect::<Vec<u32>>();
        for (sort, records, most, most_total) in [
            ("every draw from up to 3 centres, numbers up to 2", 0..=3, 2, 7),
            ("every draw from up to 2 centres, numbers up to 3", 1..=2, 3, 7),
            ("every draw from 4 centres, numbers up to 1", 4..=4, 1, 5),
        ] {
            self.every_draw(sort, &lists(records, &up_to(most)), &up_to(most_total), &up_to(most + 1));
        }
        let few = lists(1..=2, &AT_LIMITS);
        self.every_draw("every draw from up to 2 centres at the limits of 32 bits", &few, &AT_LIMITS, &AT_LIMITS);
        let one = lists(1..=1, &AT_MORE_LIMITS);
        self.every_draw("every draw from one centre at the limits of 32 bits", &one, &AT_MORE_LIMITS, &AT_MORE_LIMITS);
        // Sums as far above 32 bits as they can be.
        let equal =
            lists(1..=1, &AT_LIMITS).into_iter().flat_map(|one| (3..=8).map(move |records| one.repeat(records)));
        let equal: Vec<Vec<Centre>> = equal.collect();
        self.every_draw("every draw from 3 to 8 equal centres at these limits", &equal, &AT_LIMITS, &AT_LIMITS);
        self.draws_by_place();
        self.draws_by_records();
        self.draws_by_centre();
    }

    /// By every centre, and by the number behind the last.
    fn every_draw(&mut self, sort: &'static str, lists: &[Vec<Centre>], totals: &[u32], amounts: &[u32]) {
        for (centres, &total) in lists.iter().flat_map(|centres| totals.iter().map(move |total| (centres, total))) {
            let session = Session { centres: centres.clone(), total };
            for (centre, &amount) in (0..=centres.len()).flat_map(|c| amounts.iter().map(move |amount| (c, amount))) {
                self.draw(sort, &session, centre, amount);
            }
        }
    }

    /// One centre unlike the others, at every place of up to 8: each thing that makes a list unsound, and a guarantee that is kept back.
    fn draws_by_place(&mut self) {
        const UNLIKE: [[u32; 3]; 5] = [[4, 3, 0], [0, 3, 4], [11, 11, 0], [0, 11, 11], [4, 9, 1]];
        let of = |[guarantee, cap, drawn]: [u32; 3]| Centre { guarantee, cap, drawn };
        let with = |records: usize, place: usize, unlike| {
            let mut centres = vec![of([0, 9, 0]); records];
            centres[place] = of(unlike);
            centres
        };
        let places = (2..=8).flat_map(|records| (0..records).map(move |place| (records, place)));
        let lists = places.flat_map(|(records, place)| UNLIKE.map(|unlike| with(records, place, unlike)));
        let amounts: Vec<u32> = (0..=11).collect();
        self.every_draw("draws with one centre unlike the others", &lists.collect::<Vec<_>>(), &[10], &amounts);
    }

    /// Lists that are sound but for their length, as far as a byte and two bytes count: up to 8 records each centre gets its draw.
    fn draws_by_records(&mut self) {
        const SORT: &str = "draws by number of records";
        for records in (0..=24).chain(254..=266).chain([65_535, 65_536, 65_537, 65_544, 65_545]) {
            let session =
                Session { centres: vec![Centre { guarantee: 1, cap: 3, drawn: 0 }; records], total: u32::MAX };
            for centre in [0, 1, 7, 8, 9, records.saturating_sub(1), records] {
                for amount in [0, 1, 3] {
                    let said = self.draw(SORT, &session, centre, amount);
                    let is_granted = matches!(said, DrawVerdict::Granted(_));
                    if is_granted != (records <= 8 && centre < records) {
                        disagree(SORT, &format!("{records} records, centre {centre}, amount {amount}: {said}"));
                    }
                }
            }
        }
    }

    /// Numbers of no centre, whose low bits would be a centre's however many of them are kept.
    fn draws_by_centre(&mut self) {
        const SORT: &str = "draws by number of the centre";
        for records in 1..=8 {
            let session =
                Session { centres: vec![Centre { guarantee: 1, cap: 3, drawn: 0 }; records], total: u32::MAX };
            let above = (0..records).flat_map(|low| (4..usize::BITS).map(move |bit| (1 << bit) + low));
            for centre in (records..16).chain(above).chain((0..16).map(|less| usize::MAX - less)) {
                for amount in [0, 1, 4] {
                    let said = self.draw(SORT, &session, centre, amount);
                    if said != DrawVerdict::Refused(Refusal(18)) {
                        disagree(SORT, &format!("{records} records, centre {centre}, amount {amount}: {said}"));
                    }
                }
            }
        }
    }
}

/// Every list of so many records whose three numbers are of these.
fn lists(records: RangeInclusive<usize>, numbers: &[u32]) -> Vec<Vec<Centre>> {
    let centre = |fields: Vec<u32>| Centre { guarantee: fields[0], cap: fields[1], drawn: fields[2] };
    let centres: Vec<Centre> = words(numbers, 3).into_iter().map(centre).collect();
    records.flat_map(|records| words(&centres, records)).collect()
}
