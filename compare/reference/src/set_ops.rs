//! The second run of `normalize_set_ops`. Members are appended as they come, so the order in which 7 and
//! 8 are met can't be read off the Rust's arena.

use std::collections::{HashMap, HashSet};

use crate::limited::{Lent, Limited};
use crate::node::Node;
use crate::order::order;
use crate::rust::Rust;
use crate::MEMBERS;

struct Run {
    arena: Limited,
    done: HashMap<u32, u32>,
}

/// The root and the arena, held against the unchanged Rust.
pub fn normalize_set_ops(
    nodes: &[Node],
    names: &[String],
    root: u32,
    lent: Lent,
) -> (u32, Limited) {
    let mut run = Run {
        arena: Limited::holding(nodes, lent),
        done: HashMap::new(),
    };
    let new = run.normalized(root);
    let mut rust = Rust::holding(nodes, names);
    let by_rust = rust.change(root, lang_ty::TypeArena::normalize_set_ops);
    assert_eq!(by_rust, new, "the roots differ");
    assert!(rust.nodes() == run.arena.nodes, "the arenas differ");
    (new, run.arena)
}

impl Run {
    fn normalized(&mut self, number: u32) -> u32 {
        if let Some(&done) = self.done.get(&number) {
            return done;
        }
        let node = self.arena.node(number).clone();
        let new = match &node {
            Node::Union(members) | Node::Intersection(members) => self.list(&node, members),
            _ => {
                let children: Vec<u32> = node.children();
                let children = children.into_iter().map(|c| self.normalized(c)).collect();
                self.arena.intern(node.with_children(children))
            }
        };
        self.done.insert(number, new);
        new
    }

    fn list(&mut self, node: &Node, members: &[u32]) -> u32 {
        let mut flat = Vec::new();
        let mut seen = HashSet::new();
        for &member in members {
            let new = self.normalized(member);
            let spliced = self.arena.node(new);
            let same_kind = std::mem::discriminant(spliced) == std::mem::discriminant(node);
            let added = if same_kind {
                spliced.children()
            } else {
                vec![new]
            };
            flat.extend(added.into_iter().filter(|&m| seen.insert(m)));
            if flat.len() > MEMBERS {
                self.arena.meet(8);
            }
        }
        flat.sort_by(|&a, &b| order(self.arena.node(a), self.arena.node(b)));
        match flat[..] {
            [one] => one,
            _ => self.arena.intern(node.with_children(flat)),
        }
    }
}
