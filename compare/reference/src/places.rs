//! How much work the Rust's `analyze` makes of a type: it walks every place, and keeps the path of
//! every place where a variable stands.

use crate::node::Node;

#[derive(Clone, Copy, Default)]
pub struct Places {
    /// Places in all.
    pub all: u64,
    /// Places of variables.
    vars: u64,
    /// The steps of the paths to those.
    pub steps: u64,
}

/// Past these the unchanged Rust is not run: a few seconds and a few hundred megabytes.
const MOST_PLACES: u64 = 200_000;
const MOST_STEPS: u64 = 10_000_000;

impl Places {
    /// The places of a type; sums stop at the largest number.
    pub fn of(nodes: &[Node], root: u32) -> Places {
        let mut known: Vec<Places> = Vec::new();
        for node in &nodes[..=root as usize] {
            let mut sum = Places {
                all: 1,
                vars: matches!(node, Node::TyVar(_)).into(),
                steps: 0,
            };
            for child in node.children() {
                let below = known[child as usize];
                sum.all = sum.all.saturating_add(below.all);
                sum.vars = sum.vars.saturating_add(below.vars);
                let steps = below.steps.saturating_add(below.vars);
                sum.steps = sum.steps.saturating_add(steps);
            }
            known.push(sum);
        }
        known[root as usize]
    }

    pub fn can_be_walked(self) -> bool {
        self.all <= MOST_PLACES && self.steps <= MOST_STEPS
    }
}
