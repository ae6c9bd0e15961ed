//! The chain join's overlap, whatever the seed: every small set, by both rules where a second alternative of a chain join is entered.

use crate::meaning::MORE_NODES;
use crate::overlap::before_nine;
use crate::small::{for_each_choice, plain_records};
use crate::Comparison;
use second::constraint::{self, number_of_variables, Constraint, Variable};
use second::LEAST_BUFFER;

/// Sets of up to `most` records of some kinds, after those in front; what is noted of those whose count falls.
struct Family {
    sort: &'static str,
    falls: &'static str,
    front: Vec<Constraint>,
    kinds: &'static [u8],
    variables: u8,
    most: usize,
}

/// By which join x and y would come together.
fn families() -> [Family; 4] {
    use Constraint::{Before, Below, Child, Leaf, Root};
    let [a, b, c, d, e, f, g, h] = [0, 1, 2, 3, 4, 5, 6, 7].map(Variable);
    let children = [Child(a, b), Child(a, c), Below(b, d), Below(c, d)];
    let more_children = [Child(e, f), Child(e, g), Below(f, h), Below(g, h)];
    [
        Family {
            sort: "sets of up to 4 of below, strictly below, differ and before over 4 variables",
            falls: "a small set with a smaller count by third joins, over 4 variables",
            front: Vec::new(),
            kinds: &[2, 3, 5, 9],
            variables: 4,
            most: 4,
        },
        Family {
            sort: "sets of up to 3 of these after before(2,4), below(0,4), before(2,0), over 5 variables",
            falls: "a small set with a smaller count by third joins, over 5 variables",
            front: vec![Before(c, e), Below(a, e), Before(c, a)],
            kinds: &[2, 3, 5, 9],
            variables: 5,
            most: 3,
        },
        Family {
            sort: "sets of up to 2 of differ and leaf after two children of one above one, twice, over 8 variables",
            falls: "a small set with a smaller count by parent joins",
            front: [children, more_children].concat(),
            kinds: &[5, 7],
            variables: 8,
            most: 2,
        },
        Family {
            sort: "sets of up to 2 of child, below, differ and before after a leaf under the root and two above one, over 6 variables",
            falls: "a small set with a smaller count by fourth joins",
            front: vec![Root(a), Child(a, b), Leaf(b), Below(c, e), Below(d, e)],
            kinds: &[1, 2, 5, 9],
            variables: 6,
            most: 2,
        },
    ]
}

impl Comparison {
    pub fn all_small_overlaps(&mut self) {
        for Family { sort, falls, front, kinds, variables, most } in families() {
            let mut records = plain_records(variables);
            records.retain(|record| kinds.contains(&record.kind()));
            for size in 0..=most {
                for_each_choice(&records, size, &mut Vec::new(), &mut |more| {
                    let has_fallen = self.set_by_both_rules(sort, &[&front, more].concat());
                    self.overlap.note_if(has_fallen, falls);
                });
            }
        }
    }

    /// Whether its count falls. A search without a second alternative of a chain join is the same by both.
    fn set_by_both_rules(&mut self, sort: &'static str, constraints: &[Constraint]) -> bool {
        let file = constraint::write(constraints);
        let (now, trace) = self.solve_traced(sort, &file, LEAST_BUFFER, u32::MAX);
        if trace.second_of_chain == 0 {
            return false;
        }
        let before = before_nine(&file, LEAST_BUFFER, u32::MAX);
        self.hold_under_allowances(&file, &before, &now);
        let has_fallen = now.unspent_count() < before.unspent_count();
        // Of more variables there are too many assignments.
        let variables = number_of_variables(constraints);
        if has_fallen && variables <= 5 {
            self.check_meaning(constraints, &now, variables + MORE_NODES);
        }
        has_fallen
    }
}
