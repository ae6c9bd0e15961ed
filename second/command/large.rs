//! Files of as many bytes as are read, and of one more. They come through a pipe, so that none is written.

use crate::held::MOST_BYTES;
use crate::judge;
use crate::run::{hold, write};
use crate::says::{self, Expected, Printing};
use crate::Trial;
use second::LEAST_BUFFER;

/// Two nodes, in text.
const ANSWER: &[u8] = b"node 0 0 0\nnode 1 0 0\n";
const QUESTION: &[u8] = b"root 0\n";

impl Trial {
    pub fn large_files(&mut self) {
        write("question", QUESTION);
        write("answer", ANSWER);
        for length in [MOST_BYTES, MOST_BYTES + 1] {
            let long = |front: &[u8], filling: u8| [front, &vec![filling; length - front.len()]].concat();
            let zeros = long(b"", 0);
            let text = long(b"child 0 1\n# a long comment", b'.');
            let paths = long(b"/child::a\n/child::", b'.');
            let answer = long(&[ANSWER, b"#"].concat(), b'.');
            for question in [&zeros, &text, &paths] {
                self.large_question(question);
            }
            for tree in [&zeros, &answer] {
                self.large_pair(["mark", "question", "-"], QUESTION, tree, tree);
                self.large_tree(tree);
            }
            self.large_tree(&long(b"<a><b/>", b'.'));
            self.large_paths(&paths);
        }
    }

    fn large_question(&mut self, file: &[u8]) {
        let expected = match judge::question(file) {
            Ok(held) => says::solve(&second::solve(&held.records, LEAST_BUFFER, 0), Printing::Text),
            Err(refused) => {
                self.seen.note(format!("solve: {}", refused.sort));
                says::refused("-", &refused)
            }
        };
        self.large(&["solve", "-"], file, &expected);
        self.large_pair(["mark", "-", "answer"], file, ANSWER, file);
    }

    fn large_tree(&mut self, file: &[u8]) {
        let expected = match judge::xml(file) {
            Ok(converted) => says::xml(&converted, false),
            Err(refused) => {
                self.seen.note(format!("xml: {}", refused.sort));
                says::refused("-", &refused)
            }
        };
        self.large(&["xml"], file, &expected);
    }

    fn large_paths(&mut self, file: &[u8]) {
        let refused = judge::paths(file).err().expect("a text that is refused for its bytes");
        self.large(&["paths"], file, &says::refused("-", &refused));
    }

    /// One of the two comes as standard input.
    fn large_pair(&mut self, words: [&str; 3], question: &[u8], answer: &[u8], input: &[u8]) {
        let marked = judge::mark(question, answer);
        self.note_mark(question, &marked);
        let (line, status) = says::mark(words[1], words[2], &marked);
        self.large(&words, input, &Expected { output: line.into_bytes(), errors: Vec::new(), status });
    }

    fn large(&mut self, words: &[&str], input: &[u8], expected: &Expected) {
        let said = self.run_on(words, input);
        hold("a large file", words, &said, expected, &[input]);
    }
}
