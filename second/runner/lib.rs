//! What the runners of the programs and of the command share: parts that are run in order, and sorts that must come up.

use std::collections::BTreeSet;

/// A part of what is run, and its name.
pub type Part<Trial> = (&'static str, fn(&mut Trial));

/// Runs the parts in order, and says how many runs each took.
pub fn tried<Trial>(trial: &mut Trial, parts: &[Part<Trial>], runs: fn(&Trial) -> u64) -> String {
    let each = parts.iter().map(|(name, part)| {
        let before = runs(trial);
        part(trial);
        format!("{} {name}", runs(trial) - before)
    });
    each.collect::<Vec<String>>().join(", ")
}

/// The sorts of what has been run.
#[derive(Default)]
pub struct Sorts(BTreeSet<String>);

impl Sorts {
    pub fn note(&mut self, sort: impl Into<String>) {
        self.0.insert(sort.into());
    }

    /// How many sorts must come up, or the first of them that did not.
    pub fn all_of(&self, must: Vec<String>) -> Result<usize, String> {
        match must.iter().find(|&sort| !self.0.contains(sort)) {
            Some(sort) => Err(sort.clone()),
            None => Ok(must.len()),
        }
    }
}
