//! Every record there is, 4,294,967,296 of them, alone in a file: the archive's number by the solver and by the marker, and its n where it is
//! accepted, against the second side's one pass. About a minute; `.ci/second` builds it and does not run it.
//!
//! usage: every_record

use second::one_pass::{step, NOTHING_READ};
use second::verdict::hex;
use second::Refusal;

fn main() {
    let mut refused = [0u64; 7];
    let mut accepted = 0u64;
    for number in 0..=u32::MAX {
        let file = number.to_le_bytes();
        let expected = step(NOTHING_READ, file);
        let is_so = match expected {
            Err(Refusal(question)) => archive::is_refused(&file, question, question),
            Ok(_) => archive::is_refused(&file, 7, 8) && archive::number_or_n(&file).is_ok_and(|own| own == expected),
        };
        if !is_so {
            println!("DISAGREEMENT: {} should be {expected:?}", hex(&file));
            std::process::exit(1);
        }
        match expected {
            Err(Refusal(question)) => refused[question as usize] += 1,
            Ok(_) => accepted += 1,
        }
    }
    let [.., three, four, five, six] = refused;
    println!("every record: {accepted} accepted with their n, refused 3 {three}, 4 {four}, 5 {five}, 6 {six}; none disagreed");
}
