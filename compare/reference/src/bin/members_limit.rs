//! What the program `members_limit` must print: its types are built here as nodes, each call is put as a case, and its answer is
//! the one that the reference gives to `vectors`, so the unchanged Rust's. Nothing of our program is run for it. The stored
//! lines were made, and are made anew when a type or a room joins, by
//!
//!     compare/target/release/members_limit >crates/members_limit/stdout
//!
//! The test says whether they still are these.

use reference::answer::answer;
use reference::case::{Case, Host};
use reference::memory::Memory;
use reference::node::Node;

/// How many words and starts are lent besides what the type fills.
const ROOMS: [(&str, usize, usize); 4] = [
    ("", 80, 8),
    (", no word left", 0, 8),
    (", no start left", 80, 0),
    (", one node left", 2, 1),
];

/// The nodes that a root has as members.
const BOUND: u32 = 65;
const NEW: u32 = 68;
const FIRST: u32 = 69;
const TO_64: u32 = 70;
const TO_65: u32 = 71;

const ROOTS: [(&str, &[u32]); 7] = [
    ("64", &[FIRST, TO_64]),
    ("64 and repeats", &[FIRST, TO_64, FIRST]),
    ("65", &[FIRST, TO_65]),
    ("65 and the bound", &[FIRST, TO_65, BOUND]),
    ("a new one and 65", &[NEW, FIRST, TO_65]),
    ("65 and a new one", &[FIRST, TO_65, NEW]),
    ("a new one, the bound and 65", &[NEW, BOUND, FIRST, TO_65]),
];

type List = fn(Vec<u32>) -> Node;

/// A kind of list with the bound that decides it.
const KINDS: [(&str, List, Node); 2] = [
    ("union", Node::Union, Node::Top),
    ("intersection", Node::Intersection, Node::Bottom),
];

/// 65 members, the bound, a node that becomes `Neg` of int, lists of members, and the root.
fn nodes(list: List, bound: &Node, root: &[u32]) -> Vec<Node> {
    let mut nodes = vec![Node::Primitive(2)];
    nodes.extend((0..64).map(Node::List));
    nodes.push(bound.clone());
    nodes.extend([Node::TyVar(0), list(vec![66, 0]), Node::Neg(67)]);
    nodes.extend([0..40, 30..64, 30..65].map(|members| list(members.collect())));
    nodes.push(list(root.to_vec()));
    nodes
}

fn host(nodes: &[Node], words: usize, starts: usize) -> Host {
    let used: usize = nodes.iter().map(Node::size).sum();
    let empty = Memory {
        words: vec![0; used + words],
        starts: vec![0; nodes.len() + starts],
        ..Memory::default()
    };
    Host {
        table: vec![],
        memory: empty.holding(nodes),
    }
}

fn lines() -> String {
    let mut lines = String::new();
    for (kind, list, bound) in KINDS {
        for (members, root) in ROOTS {
            let nodes = nodes(list, &bound, root);
            for (room, words, starts) in ROOMS {
                let case = Case::Simplify(host(&nodes, words, starts), nodes.len() as u32 - 1);
                let answer = answer(&case).without_memory();
                lines += &format!("{kind} of {members}{room}: {answer}\n");
            }
        }
    }
    lines
}

fn main() {
    print!("{}", lines());
}

#[test]
fn stored() {
    let stored = include_str!("../../../../crates/members_limit/stdout");
    assert_eq!(lines(), stored);
}
