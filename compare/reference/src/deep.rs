//! The types that the programs `walked` and `rewritten` ask about: deep ones, ones with a node at very many places, and
//! document 01's pair of sets.

use crate::case::Host;
use crate::memory::Memory;
use crate::node::{Field, Node};
use crate::{NODES, WORDS};

const A: Node = Node::TyVar(0);
const INT: Node = Node::Primitive(2);
const BOOL: Node = Node::Primitive(1);

/// All 4,096 nodes: each after the first ones comes from the number of the one before.
fn chain(first: &[Node], step: impl Fn(u32) -> Node) -> Vec<Node> {
    let rest = first.len()..NODES;
    let rest = rest.map(|n| step(n as u32 - 1));
    first.iter().cloned().chain(rest).collect()
}

/// The closed set with these fields, each a name's number and a child.
fn set(fields: &[(u16, u32)]) -> Node {
    let field = |&(name, child)| Field {
        optional: false,
        name,
        child,
    };
    Node::AttrSet(fields.iter().map(field).collect(), None, false)
}

/// F[a, int] and F[a, bool] as nodes 3 and 4, and a set of two of them.
fn pair(p: u32, q: u32) -> Vec<Node> {
    let lambdas = [Node::Lambda(0, 1), Node::Lambda(0, 2)];
    let leaves = [A, INT, BOOL];
    let nodes = leaves.into_iter().chain(lambdas);
    nodes.chain([set(&[(0, p), (1, q)])]).collect()
}

/// The types, each the last of its nodes.
pub fn types() -> Vec<(&'static str, Vec<Node>)> {
    let union = |c| Node::Union(vec![c]);
    let intersection = |c| Node::Intersection(vec![c]);
    let in_turn = |c| [union, intersection][c as usize % 2](c);
    vec![
        ("shared lambdas", chain(&[A], |c| Node::Lambda(c, c))),
        ("shared unions", chain(&[A], |c| Node::Union(vec![c, c]))),
        ("lists", chain(&[A], Node::List)),
        ("lambdas by param", chain(&[A, INT], |c| Node::Lambda(c, 0))),
        ("lambdas by body", chain(&[A, INT], |c| Node::Lambda(0, c))),
        ("unions", chain(&[A], union)),
        ("intersections", chain(&[A], intersection)),
        ("unions and intersections", chain(&[A], in_turn)),
        ("negs", chain(&[A], Node::Neg)),
        ("names", chain(&[A], |c| Node::Named(1, c))),
        ("sets", chain(&[A], |c| set(&[(1, c)]))),
        ("one lambda twice", pair(3, 3)),
        ("two lambdas", pair(3, 4)),
    ]
}

/// These nodes in an arena of full size, under the names p and q.
pub fn host(nodes: &[Node]) -> Host {
    let empty = Memory {
        words: vec![0; WORDS],
        starts: vec![0; NODES],
        ..Memory::default()
    };
    Host {
        table: b"\x01p\x01q".to_vec(),
        memory: empty.holding(nodes),
    }
}
