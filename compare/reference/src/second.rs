//! The second run of `simplify`: the defined passes over our own nodes, with the count of passes and
//! the first refusal met.

use std::collections::{HashMap, HashSet};

use crate::limited::{Lent, Limited};
use crate::node::Node;
use crate::places::Places;
use crate::MEMBERS;

/// One pass, and up to five more.
const PASSES: u32 = 6;

pub struct Second {
    pub arena: Limited,
    pub root: u32,
    pub passes: u32,
    /// Whether every pass took a type that the Rust can walk.
    pub can_be_walked: bool,
}

/// What holds through one pass: the variables that have one sign, and what each node became, with and
/// without removal.
struct Pass {
    removable: HashSet<u32>,
    done: HashMap<(u32, bool), u32>,
}

pub fn run(nodes: &[Node], root: u32, lent: Lent) -> Second {
    let mut run = Second {
        arena: Limited::holding(nodes, lent),
        root,
        passes: 0,
        can_be_walked: true,
    };
    loop {
        let before = run.root;
        run.pass();
        let unchanged = run.passes > 1 && run.root == before;
        if unchanged || run.passes == PASSES {
            return run;
        }
    }
}

impl Second {
    fn pass(&mut self) {
        let nodes = &self.arena.nodes;
        self.can_be_walked &= Places::of(nodes, self.root).can_be_walked();
        let mut pass = Pass {
            removable: one_signed(nodes, self.root),
            done: HashMap::new(),
        };
        self.root = self.simplified(self.root, true, &mut pass);
        self.passes += 1;
    }

    fn simplified(&mut self, number: u32, removes: bool, pass: &mut Pass) -> u32 {
        if let Some(&done) = pass.done.get(&(number, removes)) {
            return done;
        }
        let node = self.arena.node(number).clone();
        let new = match node {
            Node::Union(members) => self.list(true, &members, removes, pass),
            Node::Intersection(members) => self.list(false, &members, removes, pass),
            _ => {
                let children = node.children().into_iter();
                let children = children
                    .map(|c| self.simplified(c, removes, pass))
                    .collect();
                self.arena.intern(node.with_children(children))
            }
        };
        pass.done.insert((number, removes), new);
        new
    }

    /// A union or an intersection, whose members are all simplified before the list is built.
    fn list(&mut self, union: bool, members: &[u32], removes: bool, pass: &mut Pass) -> u32 {
        let (dropped, decides) = match union {
            true => (Node::Bottom, Node::Top),
            false => (Node::Top, Node::Bottom),
        };
        let mut simplified = Vec::new();
        for &member in members {
            if removes && self.is_removable(member, pass) {
                continue;
            }
            let new = self.simplified(member, removes, pass);
            if *self.arena.node(new) != dropped {
                simplified.push(new);
            }
        }
        if simplified.iter().any(|&m| *self.arena.node(m) == decides) {
            return self.arena.intern(decides);
        }
        let flat = self.spliced(union, &simplified);
        match flat[..] {
            [] => self.simplified(members[0], false, pass),
            [one] => one,
            _ if union => self.arena.intern(Node::Union(flat)),
            _ => self.arena.intern(Node::Intersection(flat)),
        }
    }

    /// Members of the list's own kind give their members; first copies stay.
    fn spliced(&mut self, union: bool, members: &[u32]) -> Vec<u32> {
        let mut seen = HashSet::new();
        let mut flat = Vec::new();
        for member in members {
            let inner = match self.arena.node(*member) {
                Node::Union(inner) if union => &inner[..],
                Node::Intersection(inner) if !union => &inner[..],
                _ => std::slice::from_ref(member),
            };
            flat.extend(inner.iter().copied().filter(|&m| seen.insert(m)));
        }
        if flat.len() > MEMBERS {
            self.arena.meet(8);
        }
        flat
    }

    fn is_removable(&self, member: u32, pass: &Pass) -> bool {
        let inner = match self.arena.node(member) {
            Node::Neg(inner) => *inner,
            _ => member,
        };
        match self.arena.node(inner) {
            Node::TyVar(index) => pass.removable.contains(index),
            _ => false,
        }
    }
}

/// The variables of a type whose places all have one sign. Children have lower numbers, so going down
/// from the root a node's signs are complete when it is met.
fn one_signed(nodes: &[Node], root: u32) -> HashSet<u32> {
    let mut signs = vec![(false, false); root as usize + 1];
    signs[root as usize] = (true, false);
    let mut found = HashSet::new();
    for number in (0..=root as usize).rev() {
        let (positive, negative) = signs[number];
        let node = &nodes[number];
        if let Node::TyVar(index) = node {
            if positive != negative {
                found.insert(*index);
            }
        }
        for (step, child) in node.children().into_iter().enumerate() {
            let turns = matches!((node, step), (Node::Lambda(..), 0) | (Node::Neg(_), _));
            let (p, n) = if turns {
                (negative, positive)
            } else {
                (positive, negative)
            };
            let sign = &mut signs[child as usize];
            *sign = (sign.0 || p, sign.1 || n);
        }
    }
    found
}
