//! What has come up in the texts of paths, and what must.

use crate::Comparison;
use second::path::{Path, Test, AXES};
use std::collections::BTreeMap;

/// What came up, and how often; the number is of lines, variables or bytes, or 1 for what stands in brackets.
pub type PathSorts = BTreeMap<(&'static str, usize), u64>;

impl Comparison {
    pub fn note(&mut self, sort: &'static str, number: usize) {
        *self.path_sorts.entry((sort, number)).or_default() += 1;
    }

    pub fn note_path(&mut self, path: &Path, in_brackets: bool) {
        self.note(
            match (in_brackets, path.from_root, path.steps.is_empty()) {
                (false, true, true) => "/ alone as a line",
                (false, true, false) => "a line from the root",
                (false, false, _) => "a line from any node",
                (true, true, true) => "/ alone in brackets",
                (true, true, false) => "brackets from the root",
                (true, false, _) => "brackets from their node",
            },
            0,
        );
        for step in &path.steps {
            self.note(step.axis.name(), in_brackets as usize);
            let test = match step.test {
                Test::Any => "*",
                Test::Letter(b'A'..=b'Z') => "a capital",
                Test::Letter(_) => "a small letter",
            };
            self.note(test, in_brackets as usize);
            step.brackets.iter().for_each(|path| self.note_path(path, true));
        }
    }

    /// What must have come up, or a longer run is needed.
    pub fn path_sort_not_seen(&self) -> Option<String> {
        let starts = ["/ alone as a line", "a line from the root", "a line from any node"];
        let in_brackets = ["/ alone in brackets", "brackets from the root", "brackets from their node"];
        let words = AXES.map(|(_, name)| name).into_iter().chain(["*", "a capital", "a small letter"]);
        let mut sorts: Vec<(&str, usize)> = starts.into_iter().chain(in_brackets).map(|sort| (sort, 0)).collect();
        sorts.extend(words.flat_map(|word| [(word, 0), (word, 1)]));
        sorts.extend((1..=8).map(|lines| ("lines", lines)));
        sorts.extend((2..=16).map(|variables| ("variables written", variables)));
        sorts.push(("variables refused", 17));
        sorts.extend([1023, 1024].map(|bytes| ("bytes written", bytes)));
        sorts.push(("bytes refused", 1025));
        let counts = [self.selections.trees, self.selections.nones, self.selections.tree_by_tree];
        sorts
            .into_iter()
            .find(|sort| !self.path_sorts.contains_key(sort))
            .map(|(sort, number)| format!("paths: {sort} {number}"))
            .or_else(|| counts.contains(&0).then(|| "paths: tree or none against definition 2.3".to_string()))
    }
}
