// A text of paths to records in plain Rust: recursive descent; each function takes the bytes left and hands back those behind what it has
// read. Records are gathered beside the lent buffer, so that a refusal changes none of its bytes.

use crate::cudreth::{BEFORE, BELOW, CHILD, LABEL, ROOT, SAME, STRICTLY_BELOW};

// The most records of a text with at most 16 variables is 45; of more variables none is written.
const MOST: usize = 48;

struct Reader {
    // the next variable's number; a text of 1,024 bytes cannot have 256
    next: u8,
    // the root's variable, 0 while no path has started there
    root: u8,
    count: usize,
    records: [[u8; 4]; MOST],
}

// An axis, `::` and a test.
struct Move {
    kind: u8,
    // x is the node reached
    up: bool,
    // 0 is any
    label: u8,
}

// The bytes written, or the number of the question that refuses.
pub fn read(text: &[u8], buffer: &mut [u8]) -> Result<usize, u8> {
    if buffer.len() < 1024 {
        return Err(7);
    }
    let mut reader = Reader { next: 1, root: 0, count: 0, records: [[0; 4]; MOST] };
    reader.text(text).ok_or(13)?;
    if reader.next > 16 {
        return Err(14);
    }
    let bytes = reader.records[..reader.count].as_flattened();
    buffer[..bytes.len()].copy_from_slice(bytes);
    Ok(bytes.len())
}

impl Reader {
    fn text(&mut self, text: &[u8]) -> Option<()> {
        if text.is_empty() || text.len() > 1024 {
            return None;
        }
        let mut rest = text;
        for _ in 0..8 {
            rest = self.line(rest)?;
            if rest.is_empty() {
                return Some(());
            }
        }
        None
    }

    fn line<'a>(&mut self, mut rest: &'a [u8]) -> Option<&'a [u8]> {
        let mut x;
        if let [b'/', after @ ..] = rest {
            x = self.root();
            if let [b'\n', after @ ..] = after {
                self.put([SAME, x, 0, 0]);
                return Some(after);
            }
            rest = after;
        } else {
            x = self.number();
        }
        loop {
            let (to, after) = step(rest)?;
            if let [b'\n', after @ ..] = after {
                self.reach(x, 0, to);
                return Some(after);
            }
            let (y, from) = (self.number(), self.count);
            self.reach(x, y, to);
            match self.brackets(y, after)? {
                [b'/', after @ ..] => (x, rest) = (y, after),
                [b'\n', after @ ..] => {
                    self.ended(y, from);
                    return Some(after);
                }
                _ => return None,
            }
        }
    }

    // The step that reached y, whose records start at `from`, was its line's last: y becomes 0 and what was numbered since moves down by one.
    fn ended(&mut self, y: u8, from: usize) {
        let number = |v: u8| if v == y { 0 } else { v - u8::from(v > y) };
        for [_, a, b, _] in &mut self.records[from..self.count] {
            (*a, *b) = (number(*a), number(*b));
        }
        self.root = number(self.root);
        self.next -= 1;
    }

    // Any number of `[path]` behind the step that reaches `node`.
    fn brackets<'a>(&mut self, node: u8, mut rest: &'a [u8]) -> Option<&'a [u8]> {
        while let [b'[', after @ ..] = rest {
            let [b']', after @ ..] = self.path(node, after)? else { return None };
            rest = after;
        }
        Some(rest)
    }

    // A path in brackets.
    fn path<'a>(&mut self, mut x: u8, mut rest: &'a [u8]) -> Option<&'a [u8]> {
        if let [b'/', after @ ..] = rest {
            x = self.root();
            if let [b']', ..] = after {
                return Some(after);
            }
            rest = after;
        }
        loop {
            let (to, after) = step(rest)?;
            let y = self.number();
            self.reach(x, y, to);
            match self.brackets(y, after)? {
                [b'/', after @ ..] => (x, rest) = (y, after),
                after => return Some(after),
            }
        }
    }

    fn root(&mut self) -> u8 {
        if self.root == 0 {
            self.root = self.number();
            self.put([ROOT, self.root, 0, 0]);
        }
        self.root
    }

    fn number(&mut self) -> u8 {
        self.next += 1;
        self.next - 1
    }

    fn reach(&mut self, x: u8, y: u8, to: Move) {
        self.put(if to.up { [to.kind, y, x, 0] } else { [to.kind, x, y, 0] });
        if to.label != 0 {
            self.put([LABEL, y, 0, to.label]);
        }
    }

    fn put(&mut self, record: [u8; 4]) {
        if let Some(place) = self.records.get_mut(self.count) {
            *place = record;
            self.count += 1;
        }
    }
}

fn step(rest: &[u8]) -> Option<(Move, &[u8])> {
    let (kind, up, rest) = match rest.first()? {
        b's' => (SAME, false, rest.strip_prefix(b"self::")?),
        b'c' => (CHILD, false, rest.strip_prefix(b"child::")?),
        b'p' => match rest.strip_prefix(b"parent::") {
            Some(rest) => (CHILD, true, rest),
            None => (BEFORE, true, rest.strip_prefix(b"preceding-sibling::")?),
        },
        b'f' => (BEFORE, false, rest.strip_prefix(b"following-sibling::")?),
        b'd' => match rest.strip_prefix(b"descendant-or-self::") {
            Some(rest) => (BELOW, false, rest),
            None => (STRICTLY_BELOW, false, rest.strip_prefix(b"descendant::")?),
        },
        b'a' => match rest.strip_prefix(b"ancestor-or-self::") {
            Some(rest) => (BELOW, true, rest),
            None => (STRICTLY_BELOW, true, rest.strip_prefix(b"ancestor::")?),
        },
        _ => return None,
    };
    match rest {
        [b'*', rest @ ..] => Some((Move { kind, up, label: 0 }, rest)),
        [label @ (b'a'..=b'z' | b'A'..=b'Z'), rest @ ..] => Some((Move { kind, up, label: *label }, rest)),
        _ => None,
    }
}
