//! What the program `rewritten` must print, made as the lines of `walked` are: each call is put as a case, and its answer is the
//! one that the reference gives to `vectors` and the programs beside it. The stored lines were made, and are made anew when a type or a call joins, by
//!
//!     compare/target/release/rewritten >crates/rewritten/stdout
//!
//! The test says whether they still are these.

use reference::answer::answer;
use reference::calls::import_from_arena;
use reference::case::{Case, Host};
use reference::deep::{host, types};
use reference::memory::Memory;
use reference::node::Node;
use reference::{NODES, WORDS};

/// Types that stand for nothing new here: the sets of two lambdas are small.
const LEFT_OUT: [&str; 2] = ["one lambda twice", "two lambdas"];

const CHANGES: [(&str, u8); 3] = [
    ("normalize_vars", 10),
    ("normalize_replacing_unknown", 12),
    ("normalize_set_ops", 17),
];

/// The arena that `compact` leaves: the type's nodes alone, children first.
fn copied(nodes: &[Node], names: &[String], root: u32) -> Vec<Node> {
    reference::rust::Rust::holding(nodes, names).compact(root).0
}

fn said(case: Case) -> String {
    answer(&case).without_memory()
}

/// The lines of the calls on one type.
fn calls(nodes: &[Node]) -> Vec<(String, String)> {
    let given = host(nodes);
    let root = nodes.len() as u32 - 1;
    let change = |(call, op): (&str, u8)| {
        let case = Case::OnType(op, given.clone(), root);
        (call.to_string(), said(case))
    };
    let mut lines: Vec<_> = CHANGES.into_iter().map(change).collect();
    let target = Memory {
        words: vec![0; WORDS],
        starts: vec![0; NODES],
        ..Memory::default()
    };
    let compact = said(Case::Compact(given.clone(), root, target));
    lines.push(("compact".into(), compact));
    let names = ["p".to_string(), "q".to_string()];
    let copy: Host = host(&copied(nodes, &names, root));
    let equal = |other: u32| said(Case::Equal((given.clone(), root), (copy.clone(), other)));
    lines.push(("structurally_eq".into(), equal(root)));
    let before = "structurally_eq of the node before";
    lines.push((before.into(), equal(root - 1)));
    lines.extend(imports(&given, root));
    lines
}

/// The type imported into no node, and once more into what that leaves.
fn imports(given: &Host, root: u32) -> [(String, String); 2] {
    let first = host(&[]);
    let (_, memory) = import_from_arena(given, root, &first).expect("no room");
    let second = Host {
        memory,
        ..first.clone()
    };
    let into = |target| said(Case::Import(given.clone(), root, target));
    [
        ("import_from_arena".into(), into(first)),
        ("import_from_arena once more".into(), into(second)),
    ]
}

fn lines() -> String {
    let mut lines = String::new();
    for (name, nodes) in types() {
        if LEFT_OUT.contains(&name) {
            continue;
        }
        for (call, answer) in calls(&nodes) {
            lines += &format!("{name}, {call}: {answer}\n");
        }
    }
    lines
}

fn main() {
    // The Rust's walks that ask for no stack are given one.
    print!("{}", stacker::maybe_grow(0, 0, lines));
}

#[test]
fn stored() {
    let stored = include_str!("../../../../crates/rewritten/stdout");
    assert_eq!(stacker::maybe_grow(0, 0, lines), stored);
}
