//! One pass, whatever the seed: every short file of some good and bad records at every split, every record with bytes at the limits after
//! everything that can be kept, full files, and files that are refused by their length.

use crate::one_pass::shortest;
use crate::Comparison;
use second::one_pass::{NumberOrN, Record};
use second::Refusal;

/// Good records and bad ones, each with its n or number alone, worked out by hand.
pub const RECORDS: [(Record, NumberOrN); 25] = [
    ([7, 0, 0, 0], Ok(1)),
    ([8, 0, 0, 255], Ok(1)),
    ([1, 0, 1, 0], Ok(2)),
    ([6, 2, 0, 0], Ok(3)),
    ([2, 3, 3, 0], Ok(4)),
    ([8, 4, 0, 1], Ok(5)),
    ([9, 5, 1, 0], Ok(6)),
    ([9, 0, 15, 0], Ok(16)),
    ([5, 15, 0, 0], Ok(16)),
    ([0, 0, 0, 0], Err(Refusal(3))),
    ([10, 15, 15, 0], Err(Refusal(3))),
    ([255, 16, 16, 255], Err(Refusal(3))),
    ([3, 16, 0, 0], Err(Refusal(4))),
    ([4, 0, 16, 0], Err(Refusal(4))),
    ([7, 255, 1, 0], Err(Refusal(4))),
    ([8, 16, 1, 0], Err(Refusal(4))),
    ([9, 1, 16, 97], Err(Refusal(4))),
    ([8, 0, 0, 0], Err(Refusal(5))),
    ([8, 15, 15, 0], Err(Refusal(5))),
    ([6, 0, 16, 0], Err(Refusal(6))),
    ([6, 1, 0, 255], Err(Refusal(6))),
    ([7, 15, 15, 0], Err(Refusal(6))),
    ([8, 0, 16, 1], Err(Refusal(6))),
    ([1, 14, 15, 1], Err(Refusal(6))),
    ([9, 0, 15, 255], Err(Refusal(6))),
];

impl Comparison {
    pub fn all_small_passes(&mut self) {
        self.all_short_files_split();
        self.all_records_after_all_kept();
        self.full_files_split();
        self.files_refused_by_length();
    }

    fn all_short_files_split(&mut self) {
        let mut files = vec![Vec::new()];
        self.every_split(&files[0]);
        for _ in 1..=3 {
            files = files.iter().flat_map(|file| RECORDS.map(|record| [&file[..], &[record]].concat())).collect();
            for file in &files {
                self.every_split(file);
            }
        }
    }

    /// By hand: the number of the first bad record, or else the highest n.
    fn every_split(&mut self, file: &[(Record, NumberOrN)]) {
        const SORT: &str = "files of up to 3 good and bad records at every split";
        let records: Vec<Record> = file.iter().map(|(record, _)| *record).collect();
        let number = file.iter().find_map(|(_, alone)| alone.err());
        let highest = file.iter().filter_map(|(_, alone)| alone.ok()).max().unwrap_or(0);
        self.hold_number_or_n(SORT, &records.concat(), number.map_or(Ok(highest), Err));
        for at in 0..=records.len() {
            self.hold_split(SORT, &records, at);
        }
    }

    fn all_records_after_all_kept(&mut self) {
        let numbers = (3..=6).map(|number| Err(Refusal(number)));
        for kept in (0..=16).map(Ok).chain(numbers) {
            for record in records_at_the_limits() {
                let mut records = three_of_which(kept);
                let at = records.len();
                records.push(record);
                self.hold_split("every record with bytes at the limits after all that can be kept", &records, at);
            }
        }
    }

    /// 256 records: each of the good and bad ones first, in the middle and last among those of n 1.
    fn full_files_split(&mut self) {
        for (record, _) in RECORDS {
            for place in [0, 128, 255] {
                let mut records = [[7, 0, 0, 0]; 256];
                records[place] = record;
                for at in [0, 1, 128, 129, 255, 256] {
                    self.hold_split("files of 256 records split", &records, at);
                }
            }
        }
    }

    fn files_refused_by_length(&mut self) {
        const SORT: &str = "files refused by length";
        let too_long = [1025, 1026, 1027, 1028, 2048, 70_000].map(|length| (length, 1));
        let not_whole = [1, 2, 3, 5, 6, 7, 1021, 1022, 1023].map(|length| (length, 2));
        for (length, number) in not_whole.into_iter().chain(too_long) {
            for (record, _) in RECORDS {
                let file: Vec<u8> = record.into_iter().cycle().take(length).collect();
                self.hold_length(SORT, &file, number);
            }
        }
    }
}

fn records_at_the_limits() -> Vec<Record> {
    const VARIABLES: [u8; 6] = [0, 1, 14, 15, 16, 255];
    let mut records = Vec::new();
    for kind in [0, 1, 2, 3, 4, 5, 6, 7, 8, 9, 10, 255] {
        for x in VARIABLES {
            for y in VARIABLES {
                records.extend([0, 1, 255].map(|label| [kind, x, y, label]));
            }
        }
    }
    records
}

/// Three records of which this is kept: n by y of the one in the middle, or the one in the middle is bad. Of no record n 0 is kept.
fn three_of_which(kept: NumberOrN) -> Vec<Record> {
    match kept {
        Ok(0) => vec![],
        Ok(n) => vec![[7, 0, 0, 0], [2, 0, n as u8 - 1, 0], [8, 0, 0, 1]],
        Err(_) => [vec![[5, 15, 0, 0]], shortest(kept), vec![[9, 0, 15, 0]]].concat(),
    }
}
