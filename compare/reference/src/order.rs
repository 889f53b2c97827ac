//! The order of nodes, from document 01: what the Rust's order is held against.

use std::cmp::Ordering;

use crate::node::{Field, Node};

pub fn order(left: &Node, right: &Node) -> Ordering {
    let Node::AttrSet(fields, dynamic, open) = left else {
        return plain(left).cmp(&plain(right));
    };
    let Node::AttrSet(others, other_dynamic, other_open) = right else {
        return plain(left).cmp(&plain(right));
    };
    let contents = |f: &Field| (f.name, f.child);
    let optional = |f: &&Field| f.optional;
    let name = |f: &Field| f.name;
    let by_fields = fields.iter().map(contents).cmp(others.iter().map(contents));
    by_fields
        .then(dynamic.cmp(other_dynamic))
        .then(open.cmp(other_open))
        .then_with(|| {
            let left = fields.iter().filter(optional).map(name);
            left.cmp(others.iter().filter(optional).map(name))
        })
}

/// Kind and contents; the contents of sets are compared above.
fn plain(node: &Node) -> (u32, Vec<u32>) {
    let words = node.encode();
    let kind = words[0] >> 28;
    let body = match node {
        Node::AttrSet(..) => vec![],
        Node::Named(name, child) => vec![u32::from(*name), *child],
        _ => words[1..].to_vec(),
    };
    (kind, body)
}
