// Two plain Rust markers, as one would write them with no proof in mind: questions 1 to 6 of the constraints, 8 to 12 of the answer,
// then the constraints in order. Their results are those of `cudreth_mark`.
const REFUSED: u64 = 3 << 48;

fn unmet(kind: u8, position: usize) -> u64 {
    1 << 48 | (kind as u64) << 32 | position as u64
}

// The number of variables, or the number of the question that refuses.
fn variables(file: &[u8]) -> Result<usize, u64> {
    if file.len() > 1024 {
        return Err(1);
    }
    if file.len() % 4 != 0 {
        return Err(2);
    }
    let mut n = 0;
    for r in file.chunks_exact(4) {
        let (kind, x, y, label) = (r[0], r[1], r[2], r[3]);
        match kind {
            1..=5 | 9 => {
                if x > 15 || y > 15 {
                    return Err(4);
                }
                if label != 0 {
                    return Err(6);
                }
                n = n.max(x.max(y) as usize + 1);
            }
            6 | 7 => {
                if x > 15 {
                    return Err(4);
                }
                if y != 0 || label != 0 {
                    return Err(6);
                }
                n = n.max(x as usize + 1);
            }
            8 => {
                if x > 15 {
                    return Err(4);
                }
                if label == 0 {
                    return Err(5);
                }
                if y != 0 {
                    return Err(6);
                }
                n = n.max(x as usize + 1);
            }
            _ => return Err(3),
        }
    }
    Ok(n)
}

struct Sheet {
    nodes: usize,
    parent: [u8; 64],
    label: [u8; 64],
    // bit v: node v has a child
    inner: u64,
    place: [u8; 16],
}

fn sheet(answer: &[u8], n: usize) -> Result<Sheet, u64> {
    if answer.len() % 4 != 0 {
        return Err(8);
    }
    let mut nodes = 0;
    let mut places = 0;
    for r in answer.chunks_exact(4) {
        match r[0] {
            1 if places == 0 => nodes += 1,
            2 => places += 1,
            _ => return Err(9),
        }
    }
    if nodes < 2 || nodes > 64 {
        return Err(10);
    }
    let mut sheet = Sheet { nodes, parent: [0; 64], label: [0; 64], inner: 0, place: [0; 16] };
    for (v, r) in answer[..nodes * 4].chunks_exact(4).enumerate() {
        if r[1] as usize != v {
            return Err(11);
        }
        if v == 0 {
            // the document node has no name
            if r[2] != 0 || r[3] != 0 {
                return Err(11);
            }
        } else {
            // nor a second child
            if r[2] as usize >= v || r[2] == 0 && v > 1 {
                return Err(11);
            }
            sheet.inner |= 1 << r[2];
        }
        sheet.parent[v] = r[2];
        sheet.label[v] = r[3];
    }
    if places != n {
        return Err(12);
    }
    for (x, r) in answer[nodes * 4..].chunks_exact(4).enumerate() {
        if r[1] as usize != x || r[2] as usize >= sheet.nodes || r[3] != 0 {
            return Err(12);
        }
        sheet.place[x] = r[2];
    }
    Ok(sheet)
}

impl Sheet {
    fn above(&self, u: u8, mut v: u8) -> bool {
        while v > u {
            v = self.parent[v as usize];
        }
        u == v
    }

    // for each node the nodes at or above it, a bit for each
    fn ancestor_sets(&self) -> [u64; 64] {
        let mut sets = [0u64; 64];
        sets[0] = 1;
        for v in 1..self.nodes {
            sets[v] = sets[self.parent[v] as usize] | 1 << v;
        }
        sets
    }
}

#[inline(always)]
fn first_unmet(constraints: &[u8], sheet: &Sheet, above: impl Fn(u8, u8) -> bool) -> u64 {
    for (position, r) in constraints.chunks_exact(4).enumerate() {
        let x = sheet.place[r[1] as usize];
        let y = sheet.place[r[2] as usize];
        let met = match r[0] {
            1 => y != 0 && sheet.parent[y as usize] == x,
            2 => above(x, y),
            3 => x != y && above(x, y),
            4 => x == y,
            5 => x != y,
            6 => x == 0,
            7 => sheet.inner >> x & 1 == 0,
            // capitals count as small letters
            8 => sheet.label[x as usize].eq_ignore_ascii_case(&r[3]),
            // node 0 has no sibling, though its parent byte is that of its children
            _ => x != 0 && x < y && sheet.parent[x as usize] == sheet.parent[y as usize],
        };
        if !met {
            return unmet(r[0], position);
        }
    }
    0
}

fn read(constraints: &[u8], answer: &[u8]) -> Result<Sheet, u64> {
    sheet(answer, variables(constraints)?)
}

// The straightforward one: below is a walk up from y.
pub fn mark(constraints: &[u8], answer: &[u8]) -> u64 {
    match read(constraints, answer) {
        Ok(sheet) => first_unmet(constraints, &sheet, |u, v| sheet.above(u, v)),
        Err(q) => REFUSED | q,
    }
}

// The one that computes what the proved marker computes: below is one bit.
pub fn mark_by_sets(constraints: &[u8], answer: &[u8]) -> u64 {
    match read(constraints, answer) {
        Ok(sheet) => {
            let sets = sheet.ancestor_sets();
            first_unmet(constraints, &sheet, |u, v| sets[v as usize] >> u & 1 == 1)
        }
        Err(q) => REFUSED | q,
    }
}
