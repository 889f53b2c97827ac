//! Chains of 4,096 nodes of every kind, on a thread with an ordinary stack.

use reference::limited::Lent;
use reference::node::{Field, Node};
use reference::rust::Rust;
use reference::{simplify::simplify, NODES, WORDS};

const DEPTH: u32 = NODES as u32 - 1;

fn chain(step: impl Fn(u32) -> Node) -> Vec<Node> {
    let first = [Node::TyVar(0)];
    first.into_iter().chain((0..DEPTH).map(step)).collect()
}

fn all() -> Vec<Vec<Node>> {
    let field = |child| Field {
        optional: true,
        name: 0,
        child,
    };
    vec![
        chain(Node::List),
        chain(Node::Neg),
        chain(|c| Node::Named(0, c)),
        chain(|c| Node::Lambda(c, 0)),
        chain(|c| Node::Lambda(0, c)),
        chain(|c| Node::AttrSet(vec![field(c)], None, false)),
        chain(|c| Node::AttrSet(vec![], Some(c), true)),
        chain(|c| Node::Union(vec![c])),
        chain(|c| Node::Intersection(vec![c])),
        chain(|c| Node::Union(vec![c, 0])),
        chain(|c| match c % 2 {
            0 => Node::Union(vec![c, 0]),
            _ => Node::Intersection(vec![c, 0]),
        }),
    ]
}

/// The Rust asks for its stack by itself; the second run doesn't, so it is given one.
#[test]
fn the_rust_walks_them() {
    for nodes in all() {
        let mut rust = Rust::holding(&nodes, &["x".into()]);
        rust.simplify(DEPTH);
        let _ = rust.display(DEPTH, 65_536);
    }
}

#[test]
fn both_runs_agree() {
    stacker::maybe_grow(0, 0, || {
        for nodes in all() {
            let lent = Lent {
                words: 2 * WORDS,
                starts: 2 * NODES,
            };
            assert!(simplify(&nodes, &["x".into()], DEPTH, lent).can_be_walked);
        }
    })
}
