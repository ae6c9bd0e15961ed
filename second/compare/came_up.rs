//! What came up in a run, how often, and what must.

use crate::shares::add;
use std::collections::BTreeMap;
use std::fmt;

pub struct CameUp {
    must: &'static [&'static str],
    times: BTreeMap<String, u64>,
}

impl CameUp {
    pub fn new(must: &'static [&'static str]) -> CameUp {
        CameUp { must, times: BTreeMap::new() }
    }

    pub fn note(&mut self, what: &str) {
        match self.times.get_mut(what) {
            Some(times) => *times += 1,
            None => drop(self.times.insert(what.to_string(), 1)),
        }
    }

    pub fn note_if(&mut self, holds: bool, what: &str) {
        if holds {
            self.note(what);
        }
    }

    pub fn note_if_asked_for(&mut self, what: &str) {
        self.note_if(self.must.contains(&what), what);
    }

    pub fn add(&mut self, other: CameUp) {
        add(&mut self.times, other.times);
    }

    /// What must have come up, or a longer run is needed.
    pub fn missing(&self) -> Option<String> {
        self.must.iter().find(|&&what| !self.times.contains_key(what)).map(|what| what.to_string())
    }
}

impl fmt::Display for CameUp {
    fn fmt(&self, f: &mut fmt::Formatter) -> fmt::Result {
        let all: Vec<String> = self.times.iter().map(|(what, times)| format!("{what} {times}")).collect();
        write!(f, "{}", all.join(", "))
    }
}
