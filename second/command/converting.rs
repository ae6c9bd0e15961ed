//! Texts of paths written as records, and trees as XML and back, with and without `--bytes`, whole and damaged.

use crate::judge::{self, Converted};
use crate::lines::Side;
use crate::says;
use crate::{damage, draws, fail, forms, Trial};
use questions::xml::{damaged_nodes, damaged_xml, named_tree, numbered_otherwise};
use second::{answer, xml};
use written::Expected as Written;

impl Trial {
    pub fn texts_of_paths(&mut self) {
        for (name, question) in written::all().unwrap_or_else(|error| fail("written questions", &error)) {
            if let Written::Paths { .. } = question.expected {
                self.paths(&name, &question.file);
            }
        }
        for _ in 0..500 {
            let text = draws::paths_text(&mut self.random);
            let text =
                if self.random.one_in(3) { questions::paths::damaged_text(&mut self.random, &text) } else { text };
            self.paths("a text of paths", &text);
        }
    }

    fn paths(&mut self, name: &str, text: &[u8]) {
        let bytes = self.random.one_in(2);
        let given = self.given("paths", &bytes_option(bytes));
        let expected = match judge::paths(text) {
            Ok(held) => {
                self.seen.note(format!("paths: written as {}", if bytes { "bytes" } else { "text" }));
                says::paths(&held.records, bytes)
            }
            Err(refused) => {
                self.seen.note(format!("paths: {}", refused.sort));
                says::refused(&given.name, &refused)
            }
        };
        self.hold_given(name, &given, text, &expected);
    }

    pub fn trees_as_xml(&mut self) {
        for (name, question) in written::all().unwrap_or_else(|error| fail("written questions", &error)) {
            match question.expected {
                Written::XmlWriter { .. } => {
                    self.xml(&name, &question.file);
                    let text = self.as_text(Side::Answer, &question.file);
                    self.xml(&name, &text);
                }
                Written::XmlReader { .. } => self.xml(&name, &question.file),
                _ => {}
            }
        }
        for _ in 0..300 {
            self.random_tree_as_xml();
        }
        for text in [&b"# nothing\n"[..], b"tree 0\n", b"\xef\xbb\xbf", b"var 0 0\n", b"node 0 0 0\nvar 0 0\n"] {
            self.xml("no tree in the text", text);
        }
        for nodes in (65..=80).chain([500, 5_000]) {
            let tree = named_tree(&mut self.random, nodes);
            let text = xml::write(&tree).expect("a tree whose labels are names");
            self.xml("more elements than there may be", &text);
        }
    }

    /// A tree there and back, and what becomes of it when it is damaged.
    fn random_tree_as_xml(&mut self) {
        let nodes = self.random.pick(&[2, 3, 5, 9, 20, 63, 64]);
        let tree = named_tree(&mut self.random, nodes);
        let tree = numbered_otherwise(&mut self.random, &tree);
        let mut records = answer::write_nodes(&tree);
        if self.random.one_in(3) {
            records.extend([[2, 0, 1, 0], [2, 1, 0, 0]].concat());
        }
        let text = self.as_text(Side::Answer, &records);
        let Ok(Converted::Xml(xml)) = judge::xml(&records) else { fail("a tree", &"is refused by the second side") };
        let with_newline = [&xml[..], b"\n"].concat();
        for file in [&records, &text, &xml, &with_newline] {
            self.xml("a tree", file);
        }
        let damaged = match self.random.below(5) {
            0 => damaged_nodes(&mut self.random, &records),
            1 => damage::text(&mut self.random, &text),
            2 => {
                let nodes = damaged_nodes(&mut self.random, &records);
                self.as_text(Side::Answer, &nodes)
            }
            3 => [&xml[..], self.random.pick(&[&b"\n\n"[..], b"\r\n", b" ", b"\n ", b"\0", b"<a/>"])].concat(),
            _ => damaged_xml(&mut self.random, &xml),
        };
        self.xml("a damaged tree", &damaged);
    }

    fn xml(&mut self, name: &str, file: &[u8]) {
        let bytes = self.random.one_in(2);
        let given = self.given("xml", &bytes_option(bytes));
        let expected = match judge::xml(file) {
            Ok(converted) => {
                self.note_xml(file, &converted, bytes);
                says::xml(&converted, bytes)
            }
            Err(refused) => {
                self.seen.note(format!("xml: {}", refused.sort));
                says::refused(&given.name, &refused)
            }
        };
        self.hold_given(name, &given, file, &expected);
    }

    fn note_xml(&mut self, file: &[u8], converted: &Converted, bytes: bool) {
        let form = forms::of_tree(file).name();
        let has_places = match form {
            "text" => file.windows(3).any(|word| word == b"var"),
            _ => file.chunks(4).any(|record| record[0] == 2),
        };
        match converted {
            Converted::Nodes(_) => self.seen.note(format!("xml: XML to {}", if bytes { "bytes" } else { "text" })),
            Converted::Xml(_) => {
                self.seen.note(format!("xml: {form} to XML"));
                if has_places {
                    self.seen.note(format!("xml: {form} with places to XML"));
                }
            }
        }
    }
}

fn bytes_option(bytes: bool) -> Vec<String> {
    bytes.then(|| "--bytes".to_string()).into_iter().collect()
}
