//! `simplify` by both runs, which must agree.

use crate::limited::Lent;
use crate::node::Node;
use crate::rust::Rust;
use crate::second::{self, Second};
use crate::MEMBERS;

/// The second run, held against the unchanged Rust wherever that can walk the types. A disagreement
/// ends the program: there is no answer to compare then.
pub fn simplify(nodes: &[Node], names: &[String], root: u32, lent: Lent) -> Second {
    let second = second::run(nodes, root, lent);
    if second.can_be_walked {
        let mut rust = Rust::holding(nodes, names);
        assert_eq!(rust.simplify(root), second.root, "the roots differ");
        let after = rust.nodes();
        assert!(after == second.arena.nodes, "the arenas differ");
        let judged = first_refusal(&after, lent);
        assert_eq!(judged, second.arena.refused, "the refusals differ");
    }
    second
}

/// The first refusal, read off the Rust's arena: nodes stand there in the order in which they came, and
/// a list of 65 members is appended to before it is stored.
pub fn first_refusal(nodes: &[Node], lent: Lent) -> Option<u8> {
    let mut words = 0;
    for (number, node) in nodes.iter().enumerate() {
        words += node.size();
        let is_list = matches!(node, Node::Union(_) | Node::Intersection(_));
        if is_list && node.children().len() > MEMBERS {
            return Some(8);
        }
        if number >= lent.starts || words > lent.words {
            return Some(7);
        }
    }
    None
}
