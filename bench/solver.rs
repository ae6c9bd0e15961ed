// The baseline: the solver of docs/FORMAT.md in fast plain Rust, unproved. Same verdicts, counts and bytes as `cudreth_solve`.
//
// - Sets of variables are u16 masks. A state is tables of sixteen rows: below, above (its columns), parent, and what is before and after.
// - Variables that are the same need no rows of their own for child, differ, leaf and label: those facts stay as given, and are looked up
//   for all of a group when it forms. Only parents are passed on, since joins start from them, and before, since it chains.
// - Entering below(a, b) adds (all above a) x (all below b) to the two tables. Where a and b become the same, the new group is checked
//   against differ and label before anything is written, and then its parents are merged in turn.
// - Only rows whose ancestors grew can have got a join, so the rows known to have none are kept as masks.
// - The first alternative works on a copy of the state, the second on the state itself.
// - The second alternative of a chain join adds to the differ facts, which all lines share: a line puts them back as it found them.
// - All is compiled four times, for sets with and without a before record, and with and without a root record: a set without before carries
//   no rows of siblings and asks nothing of them, and a set without a root asks nothing of the document node.
use crate::gate;

type Rows = [u16; 16];

const TREE: u64 = 0;
const NONE: u64 = 1 << 48;
const SPENT: u64 = 2 << 48;
const REFUSED: u64 = 3 << 48;

// The smallest member of a set that is not empty.
#[inline(always)]
fn low(set: u16) -> usize {
    (set as u32 | 1 << 15).trailing_zeros() as usize
}

#[inline(always)]
fn one(x: usize) -> u16 {
    1 << (x & 15)
}

// The members of a set, smallest first.
struct Members(u16);

impl Iterator for Members {
    type Item = usize;

    #[inline(always)]
    fn next(&mut self) -> Option<usize> {
        if self.0 == 0 {
            return None;
        }
        let x = low(self.0);
        self.0 &= self.0 - 1;
        Some(x)
    }
}

#[inline(always)]
fn union<const K: usize>(rows: &[u16; K], which: u16) -> u16 {
    Members(which).fold(0, |set, x| set | rows[x])
}

// `by` added to each row of `which`: two vectors of eight rows, no branch.
#[inline(always)]
fn raised<const K: usize>(rows: &[u16; K], which: u16, by: u16) -> [u16; K] {
    let mut new = *rows;
    for x in 0..K {
        new[x] |= if which & 1 << x != 0 { by } else { 0 };
    }
    new
}

// Row x with the rows of its members, and of theirs.
#[inline(always)]
fn chained(mut rows: Rows, n: usize) -> Rows {
    for y in 0..n {
        let by = rows[y];
        for x in 0..16 {
            rows[x] |= if rows[x] & 1 << y != 0 { by } else { 0 };
        }
    }
    rows
}

// Columns as rows: a 16 by 16 bit matrix in four words, its quarters exchanged, then their quarters, and so on.
#[inline(always)]
fn transposed(rows: &Rows) -> Rows {
    let mut w = [0u64; 4];
    for i in 0..16 {
        w[i / 4] |= (rows[i] as u64) << (16 * (i % 4));
    }
    for (i, j, shift, mask) in [
        (0, 2, 8, 0x00ff_00ff_00ff_00ffu64),
        (1, 3, 8, 0x00ff_00ff_00ff_00ff),
        (0, 1, 4, 0x0f0f_0f0f_0f0f_0f0f),
        (2, 3, 4, 0x0f0f_0f0f_0f0f_0f0f),
    ] {
        let t = (w[i] >> shift ^ w[j]) & mask;
        w[j] ^= t;
        w[i] ^= t << shift;
    }
    for v in &mut w {
        // rows 0, 1 with 2, 3, columns 2, 3 with 0, 1; then rows 0, 2 with 1, 3
        for (shift, mask) in [(30, 0x0000_0000_cccc_ccccu64), (15, 0x0000_aaaa_0000_aaaa)] {
            let t = (*v ^ *v >> shift) & mask;
            *v ^= t ^ t << shift;
        }
    }
    let mut columns = [0u16; 16];
    for i in 0..16 {
        columns[i] = (w[i / 4] >> (16 * (i % 4))) as u16;
    }
    columns
}

// The given facts that the search looks up. Only differ grows, along a line.
struct Given {
    differ: Rows,
    label: [u8; 16],
    leaf: u16,
    // variables that are root, which are the same, and variables that have a child
    root: u16,
    parents: u16,
}

impl Given {
    // What is asked only of a set with a root.
    #[inline(always)]
    fn add_root(&mut self, children: &Rows) {
        let mut never_root = self.leaf;
        for x in 0..16 {
            self.parents |= ((children[x] != 0) as u16) << x;
            never_root |= ((self.label[x] != 0) as u16) << x;
        }
        // a leaf or a label on the document node is a clash: as if they differed from it
        for r in Members(self.root) {
            self.differ[r] |= never_root;
        }
    }

    // Whether a group has differ(x, x) or two labels.
    #[inline(always)]
    fn clashes(&self, group: u16) -> bool {
        let mut label = 0;
        for x in Members(group) {
            if self.differ[x] & group != 0 {
                return true;
            }
            let own = self.label[x];
            if own != 0 {
                if label != 0 && label != own {
                    return true;
                }
                label = own;
            }
        }
        false
    }

    // Whether one of the groups clashes; `grouped` are the variables that are the same as another.
    #[inline(always)]
    fn clash(&self, below: &Rows, above: &Rows, grouped: u16) -> bool {
        // a group of one clashes only with itself
        for x in 0..16 {
            if self.differ[x] & below[x] & above[x] != 0 {
                return true;
            }
        }
        let mut rest = grouped;
        while rest != 0 {
            let x = low(rest);
            let group = below[x] & above[x];
            if self.clashes(group) {
                return true;
            }
            rest &= !group;
        }
        false
    }
}

// Settled before facts. K is 16, or 0 in a set that has none.
#[derive(Clone, Copy)]
struct Siblings<const K: usize> {
    before: [u16; K],
    after: [u16; K],
    // variables that are before or after another, and those that may have a sibling join
    linked: u16,
    open: u16,
}

impl<const K: usize> Siblings<K> {
    // before(u, v) for u in earlier and v in later
    #[inline(always)]
    fn raise(&mut self, earlier: u16, later: u16) {
        self.before = raised(&self.before, earlier, later);
        self.after = raised(&self.after, later, earlier);
        self.linked |= earlier | later;
        self.open |= earlier | later;
    }

    // The group with all that before leads to from it, either way and over any number of steps: they have one parent.
    #[inline(always)]
    fn family(&self, group: u16) -> u16 {
        let mut family = group;
        let mut new = group;
        while new != 0 {
            new = (union(&self.before, new) | union(&self.after, new)) & !family;
            family |= new;
        }
        family
    }

    // Of a set of groups the lowest one that has none in the set before it, as a set. There is one, since before has no cycle.
    #[inline(always)]
    fn next(&self, set: u16) -> u16 {
        if K == 0 || set & self.linked == 0 {
            return set & set.wrapping_neg();
        }
        Members(set).find(|&x| self.after[x] & set == 0).map_or(0, one)
    }

    // Whether below(u, v) for u in up and v in down puts one sibling below another.
    #[inline(always)]
    fn crossed(&self, up: u16, down: u16) -> bool {
        let mut beside = 0;
        for x in 0..K {
            beside |= if up & 1 << x != 0 { self.before[x] | self.after[x] } else { 0 };
        }
        beside & down != 0
    }

    // Whether one sibling is below another, or before itself.
    #[inline(always)]
    fn clash(&self, below: &Rows, above: &Rows) -> bool {
        let mut any = 0;
        for x in 0..K {
            any |= self.before[x] & (below[x] | above[x]);
        }
        any != 0
    }
}

#[derive(Clone, Copy)]
struct State<const K: usize> {
    below: Rows,
    above: Rows,
    // parents of each variable; all of them are the same
    parent: Rows,
    // variables that have a parent
    child: u16,
    // variables that may have a parent join, and a chain join
    parent_open: u16,
    chain_open: u16,
    siblings: Siblings<K>,
}

enum Join {
    Nothing,
    Parent(usize, usize, usize),
    Chain(usize, usize),
    Sibling(usize, usize, usize),
}

impl<const K: usize> State<K> {
    // below(u, v) for u in up and v in down
    #[inline(always)]
    fn raise(&mut self, up: u16, down: u16) {
        self.below = raised(&self.below, up, down);
        self.above = raised(&self.above, down, up);
    }

    // Variables that may have got a join.
    #[inline(always)]
    fn open(&mut self, set: u16) {
        self.parent_open |= set;
        self.chain_open |= set;
        if K != 0 {
            self.siblings.open |= set;
        }
    }

    // The first join that is no document join: Parent(z, x, y), Chain(x, y) or Sibling(y, a, x)
    #[inline(always)]
    fn first_join(&mut self) -> Join {
        let mut open = self.parent_open & self.child;
        while open != 0 {
            let z = low(open);
            let y = low(self.parent[z]);
            let xs = self.above[z] & !(self.below[z] | self.above[y]);
            if xs != 0 {
                self.parent_open = open;
                return Join::Parent(z, low(xs), y);
            }
            open &= open - 1;
        }
        self.parent_open = 0;
        let mut open = self.chain_open;
        while open != 0 {
            let over = self.above[low(open)];
            for x in Members(over) {
                let apart = over & !(self.below[x] | self.above[x]);
                if apart != 0 {
                    self.chain_open = open;
                    return Join::Chain(x, low(apart));
                }
            }
            open &= open - 1;
        }
        self.chain_open = 0;
        if K == 0 {
            Join::Nothing
        } else {
            self.sibling_join()
        }
    }

    // y and w of the first document join, where there is no other join. Roots are the same, and so are their children: which of them is asked
    // makes no difference.
    #[inline(always)]
    fn root_join(&self, r: usize) -> Option<(usize, usize)> {
        let y = Members(self.child).find(|&y| self.parent[y] & self.above[r] != 0)?;
        let ws = self.below[r] & !(self.above[r] | self.below[y]);
        if ws == 0 {
            None
        } else {
            Some((y, low(ws)))
        }
    }

    #[inline(always)]
    fn sibling_join(&mut self) -> Join {
        let mut open = self.siblings.open & self.siblings.linked;
        while open != 0 {
            let y = low(open);
            let siblings = self.siblings.before[y] | self.siblings.after[y];
            let shared = Members(siblings).fold(!0, |set, x| set & self.above[x]);
            let over = self.above[y] & !(self.below[y] | shared);
            if over != 0 {
                self.siblings.open = open;
                let a = low(over);
                return Join::Sibling(y, a, low(siblings & !self.below[a]));
            }
            open &= open - 1;
        }
        self.siblings.open = 0;
        Join::Nothing
    }
}

enum End {
    Tree,
    None,
    Spent,
}

struct Search<const K: usize, const R: bool> {
    given: Given,
    allowance: u32,
    count: u32,
    found: State<K>,
}

impl<const K: usize, const R: bool> Search<K, R> {
    // One more alternative, if the allowance has it.
    #[inline(always)]
    fn choose(&mut self) -> bool {
        if self.count == self.allowance {
            return false;
        }
        self.count += 1;
        true
    }

    // A first alternative that makes no two variables the same: below(u, v) for u in up and v in down.
    #[inline(always)]
    fn inner(&mut self, s: &State<K>, up: u16, down: u16) -> End {
        if s.siblings.crossed(up, down) {
            return End::None;
        }
        let mut first = *s;
        first.raise(up, down);
        first.open(down);
        self.line(&mut first)
    }

    // A first alternative that makes x and y the same, in a group with all of `within`.
    #[inline(always)]
    fn merged(&mut self, s: &State<K>, x: usize, y: usize, within: u16) -> End {
        if self.given.clashes(within) {
            return End::None;
        }
        let mut first = *s;
        if first.merge::<R>(&self.given, x, y) {
            self.line(&mut first)
        } else {
            End::None
        }
    }

    fn line(&mut self, s: &mut State<K>) -> End {
        // the differ facts, once the line has added to them
        let mut found: Option<Rows> = None;
        let end = loop {
            let join = s.first_join();
            if let Join::Nothing = join {
                match self.last(s) {
                    Some(end) => break end,
                    None => continue,
                }
            }
            if !self.choose() {
                break End::Spent;
            }
            let end = match join {
                Join::Parent(_, x, y) if s.above[x] & one(y) != 0 => self.merged(s, x, y, s.below[y] & s.above[x]),
                Join::Parent(_, x, y) | Join::Chain(x, y) | Join::Sibling(_, x, y) => {
                    self.inner(s, s.above[x], s.below[y])
                }
                Join::Nothing => End::None,
            };
            match end {
                End::None => {}
                end => break end,
            }
            if !self.choose() {
                break End::Spent;
            }
            let holds = match join {
                Join::Chain(x, y) => {
                    found.get_or_insert(self.given.differ);
                    self.given.differ[x] |= one(y);
                    s.enter(s.above[y], s.below[x], s.below[x])
                }
                Join::Parent(z, x, _) | Join::Sibling(z, x, _) => s.merge::<R>(&self.given, z, x),
                Join::Nothing => false,
            };
            if !holds {
                break End::None;
            }
        };
        if let Some(differ) = found {
            self.given.differ = differ;
        }
        end
    }

    // Where there is no other join: the end of the line, or nothing if it goes on with the second alternative of a document join.
    #[inline(always)]
    fn last(&mut self, s: &mut State<K>) -> Option<End> {
        if R {
            let r = low(self.given.root);
            if let Some((y, w)) = s.root_join(r) {
                return self.rooted(s, r, y, w);
            }
        }
        self.found = *s;
        Some(End::Tree)
    }

    // A document join: w below the outermost element y, then on the document node r.
    fn rooted(&mut self, s: &mut State<K>, r: usize, y: usize, w: usize) -> Option<End> {
        if !self.choose() {
            return Some(End::Spent);
        }
        let end = if s.above[y] & self.given.leaf != 0 {
            // all below a leaf is the same as the leaf
            self.merged(s, y, w, s.below[y] | s.below[w])
        } else {
            self.inner(s, s.above[y], s.below[w])
        };
        match end {
            End::None => {}
            end => return Some(end),
        }
        if !self.choose() {
            return Some(End::Spent);
        }
        if s.merge::<R>(&self.given, w, r) {
            None
        } else {
            Some(End::None)
        }
    }
}

impl<const K: usize> State<K> {
    // below(u, v) for u in up and v in down, which opens joins of some of down. False: a clash.
    #[inline(always)]
    fn enter(&mut self, up: u16, down: u16, opened: u16) -> bool {
        if self.siblings.crossed(up, down) {
            return false;
        }
        self.raise(up, down);
        self.open(opened);
        true
    }

    // a and b made the same, where one is above the other or a is a leaf; then the parents of the group, or the children of the document
    // node, and so on. False: a clash.
    fn merge<const R: bool>(&mut self, given: &Given, a: usize, b: usize) -> bool {
        let mut down = self.below[a] | self.below[b];
        let mut up = self.above[a] | self.above[b];
        loop {
            if up & given.leaf != 0 {
                // all below a leaf is the same as the leaf
                up |= union(&self.above, down);
            }
            let group = up & down;
            let root = R && group & given.root != 0;
            // members that bring children to the document node
            let brought = root && group & given.parents & !self.above[low(given.root)] != 0;
            // what is above all opens no join; of the group one opens for all, since they have the same rows
            let opened = if root { 0 } else { down & !group | one(low(group)) };
            if given.clashes(group) || !self.enter(up, down, opened) {
                return false;
            }
            let parents = union(&self.parent, group);
            let mut family = group;
            if K != 0 && group & self.siblings.linked != 0 {
                match self.arrange(group, parents) {
                    Some(siblings) => family = siblings,
                    None => return false,
                }
            }
            let mut next = 0;
            if parents != 0 {
                self.child |= family;
                self.parent = raised(&self.parent, family, parents);
                next = self.apart(parents);
            }
            // else the document node has no new child, or one in the group of the old ones
            if R && next == 0 && (brought || K != 0 && family != group) {
                next = self.under_root(low(given.root));
            }
            if next == 0 {
                return true;
            }
            down = union(&self.below, next);
            up = union(&self.above, next);
        }
    }

    // A set that is not empty, if its members are not all the same; else no variable.
    #[inline(always)]
    fn apart(&self, set: u16) -> u16 {
        let x = low(set);
        if set & !(self.below[x] & self.above[x]) == 0 {
            0
        } else {
            set
        }
    }

    // The children of the document node, if they are not all the same; else no variable.
    fn under_root(&self, r: usize) -> u16 {
        match children(self.child, &self.parent, self.above[r]) {
            0 => 0,
            children => self.apart(children),
        }
    }

    // What is before or after one of a new group made so of all of it, and its parents put above all its siblings, which are returned
    // with it. None: a clash.
    //
    // No other differ fact has to be kept for it: were a parent the same as one of the siblings, that one would be above another.
    fn arrange(&mut self, group: u16, parents: u16) -> Option<u16> {
        let earlier = union(&self.siblings.after, group);
        let later = union(&self.siblings.before, group);
        self.siblings.raise(earlier, group | later);
        self.siblings.raise(group, later);
        let mut family = group;
        if parents != 0 {
            family = self.siblings.family(group);
            let under = union(&self.below, family);
            self.raise(union(&self.above, parents), under);
            self.open(under);
        }
        if self.siblings.clash(&self.below, &self.above) {
            return None;
        }
        Some(family)
    }
}

// The variables that have a parent in a group; all parents of one are in one group.
#[inline(always)]
fn children(child: u16, parent: &Rows, group: u16) -> u16 {
    Members(child).fold(0, |set, z| set | if parent[z] & group != 0 { one(z) } else { 0 })
}

// The records of an accepted file.
struct Facts {
    // by kind: bit y of row x, and bit x of row y
    rows: [Rows; 16],
    columns: [Rows; 16],
    // of other kinds, and of label records
    labels: [[u8; 16]; 2],
}

impl Facts {
    const NONE: Facts = Facts { rows: [[0; 16]; 16], columns: [[0; 16]; 16], labels: [[0; 16]; 2] };

    // Whether no variable has two labels.
    #[inline(always)]
    fn read(&mut self, file: &[u8]) -> bool {
        let mut two_labels = false;
        for r in file.chunks_exact(4) {
            let (kind, x, y) = (r[0] as usize & 15, r[1] as usize & 15, r[2] as usize & 15);
            self.rows[kind][x] |= 1 << y;
            self.columns[kind][y] |= 1 << x;
            let label = &mut self.labels[(kind == 8) as usize][x];
            // capitals count as small letters
            let name = r[3].to_ascii_lowercase();
            two_labels |= *label != 0 && *label != name;
            *label = name;
        }
        !two_labels
    }
}

// The given before facts, shared within groups and chained: the tables stay so with each row that is added.
#[inline(always)]
fn ordered<const K: usize>(given: &Rows, below: &Rows, above: &Rows, all: u16) -> Siblings<K> {
    let mut siblings = Siblings { before: [0; K], after: [0; K], linked: 0, open: all };
    for x in 0..K {
        if given[x] != 0 {
            let group = below[x] & above[x];
            let later = Members(given[x]).fold(0, |set, y| set | below[y] & above[y]);
            let earlier = group | union(&siblings.after, group);
            siblings.raise(earlier, later | union(&siblings.before, later));
        }
    }
    siblings
}

// Parents passed on within families, and those above all of their family. Whether below grew.
#[inline(always)]
fn passed<const K: usize>(
    siblings: &Siblings<K>,
    given_parents: &Rows,
    parent: &mut Rows,
    child: &mut u16,
    below: &mut Rows,
) -> bool {
    let mut changed = false;
    let mut rest = siblings.linked;
    while rest != 0 {
        let family = siblings.family(one(low(rest)));
        let parents = union(given_parents, family);
        if parents != 0 {
            *child |= family;
            for x in Members(family) {
                parent[x] = parents;
            }
            // the other parents become the same as this one
            let p = low(parents);
            changed |= family & !below[p] != 0;
            below[p] |= family;
        }
        rest &= !family;
    }
    changed
}

// The settled set of the facts, or a clash.
#[inline]
fn settled<const K: usize, const R: bool>(facts: &Facts, n: usize) -> Option<(Given, State<K>)> {
    let all = ((1u32 << n) - 1) as u16;
    let Facts { rows, columns, labels } = facts;
    let root = columns[6][0];
    let leaf = columns[7][0];
    let mut given = Given { differ: [0; 16], label: labels[1], leaf, root, parents: 0 };
    let mut below = [0; 16];
    for x in 0..16 {
        given.differ[x] = rows[1][x] | rows[3][x] | rows[5][x];
        below[x] = rows[1][x] | rows[2][x] | rows[3][x] | rows[4][x] | columns[4][x];
        below[x] |= if R && root & 1 << x != 0 { all } else { 1 << x };
    }
    if R {
        given.add_root(&rows[1]);
    }
    let given_parents = columns[1];
    let mut has_parent = 0;
    for z in 0..n {
        has_parent |= ((given_parents[z] != 0) as u16) << z;
    }
    loop {
        below = chained(below, n);
        let above = transposed(&below);
        let mut grouped = 0;
        for x in 0..16 {
            grouped |= below[x] & above[x] & !(1 << x);
        }
        let mut changed = false;
        let siblings = ordered(&rows[9], &below, &above, all);
        for l in Members(leaf) {
            for y in Members(below[l] & !above[l]) {
                below[y] |= one(l);
                changed = true;
            }
        }
        let mut parent = given_parents;
        let mut child = has_parent;
        for x in Members(grouped) {
            let group = below[x] & above[x];
            if group & has_parent != 0 {
                child |= one(x);
                parent[x] = union(&given_parents, group);
            }
        }
        changed |= passed(&siblings, &given_parents, &mut parent, &mut child, &mut below);
        for z in Members(child) {
            let p = low(parent[z]);
            if parent[z] & !(below[p] & above[p]) != 0 {
                for q in Members(parent[z]) {
                    below[q] |= parent[z];
                }
                changed = true;
            }
        }
        if R {
            let top = children(child, &parent, above[low(root)]);
            for x in Members(top) {
                changed |= top & !below[x] != 0;
                below[x] |= top;
            }
        }
        if !changed {
            if given.clash(&below, &above, grouped) || siblings.clash(&below, &above) {
                return None;
            }
            let state = State { below, above, parent, child, parent_open: all, chain_open: all, siblings };
            return Some((given, state));
        }
    }
}

// The answer file at the front of the buffer, and its length.
fn read_off<const K: usize, const R: bool>(s: &State<K>, label: &[u8; 16], n: usize, answer: &mut [u8]) -> usize {
    let mut lows = 0u16;
    for x in 0..n {
        lows |= ((s.below[x] & s.above[x] & (one(x) - 1) == 0) as u16) << x;
    }
    let mut layers = [0u16; 17];
    for x in Members(lows) {
        let depth = (s.above[x] & !s.below[x] & lows).count_ones() as usize;
        layers[depth] |= one(x);
    }
    let records: &mut [[u8; 4]] = answer.as_chunks_mut().0;
    // the document node, which is the one group of the first layer if a variable is root
    records[0] = [1, 0, 0, 0];
    let mut len = 1;
    let mut top = 0;
    let next_under = layers[R as usize];
    if next_under == 0 || next_under & (next_under - 1) != 0 {
        records[1] = [1, 1, 0, 0];
        len = 2;
        top = 1;
    }
    let mut numbers = [0u8; 16];
    let mut upper = 0u16;
    for &layer in &layers[R as usize..] {
        if layer == 0 {
            break;
        }
        let mut rest = layer;
        while rest != 0 {
            let next = s.siblings.next(rest);
            rest ^= next;
            let x = low(next);
            // the one group of the layer above that is over x
            let over = s.above[x] & upper;
            let parent = if over == 0 { top } else { numbers[low(over)] };
            let group = s.below[x] & s.above[x];
            let name = Members(group).fold(0, |l, g| l | label[g]);
            records[len] = [1, len as u8, parent, name];
            numbers[x] = len as u8;
            len += 1;
        }
        upper = layer;
    }
    for x in 0..n {
        let first = low(s.below[x] & s.above[x]);
        records[len] = [2, x as u8, numbers[first], 0];
        len += 1;
    }
    len * 4
}

// Solves a set whose before facts, if there are any, have K rows; R tells whether it has a root. A call, so that a set without them has
// no part in the other's frame.
#[inline(never)]
fn search<const K: usize, const R: bool>(facts: &Facts, n: usize, answer: &mut [u8], allowance: u32) -> u64 {
    let Some((given, mut state)) = settled::<K, R>(facts, n) else {
        return NONE;
    };
    let mut search: Search<K, R> = Search { given, allowance, count: 0, found: state };
    match search.line(&mut state) {
        End::Tree => {
            let bytes = read_off::<K, R>(&search.found, &search.given.label, n, answer);
            TREE | (bytes as u64) << 32 | search.count as u64
        }
        End::None => NONE | search.count as u64,
        End::Spent => SPENT | search.count as u64,
    }
}

pub fn solve(file: &[u8], answer: &mut [u8], allowance: u32) -> u64 {
    let n = match gate::variables(file) {
        Ok(n) => n,
        Err(question) => return REFUSED | question as u64,
    };
    if answer.len() < 136 {
        return REFUSED | 7;
    }
    let mut facts = Facts::NONE;
    if !facts.read(file) {
        return NONE;
    }
    match (facts.rows[9] == [0; 16], facts.columns[6][0] == 0) {
        (true, true) => search::<0, false>(&facts, n, answer, allowance),
        (true, false) => search::<0, true>(&facts, n, answer, allowance),
        (false, true) => search::<16, false>(&facts, n, answer, allowance),
        (false, false) => search::<16, true>(&facts, n, answer, allowance),
    }
}
