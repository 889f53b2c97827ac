//! How long it takes to store nodes one by one, and at once: each call of ours judges the whole arena first. Chains of lists,
//! the kindest case, and mixed nodes of every kind, by the crate and by the unchanged Rust.
//!
//!     cd compare && cargo run --offline --profile measured -p host --example interning
//!
//! Of each the least time of nine runs counts. Making the nodes and taking arenas down isn't measured.

use std::time::{Duration, Instant};

use coombtray::{Names, OutputTy, TyRef, TypeArena};
use host::both::{nodes, their_node};
use host::random::{distinct, NAMES};

const RUNS: usize = 9;

fn lists(count: usize) -> Vec<OutputTy> {
    let lists = (1..count as u32).map(|number| OutputTy::List(TyRef::from_raw(number - 1)));
    [OutputTy::TyVar(0)].into_iter().chain(lists).collect()
}

fn names() -> Names {
    Names::new(NAMES).expect("good names")
}

fn one_by_one(nodes: Vec<OutputTy>) -> TypeArena {
    let mut arena = TypeArena::new(names());
    for node in nodes {
        arena.intern(node).expect("there is room");
    }
    arena
}

fn at_once(nodes: Vec<OutputTy>) -> TypeArena {
    TypeArena::from_nodes(names(), nodes).expect("there is room")
}

fn by_the_rust(nodes: Vec<lang_ty::OutputTy>) -> lang_ty::TypeArena {
    let mut arena = lang_ty::TypeArena::new();
    for node in nodes {
        arena.intern(node);
    }
    arena
}

/// The least time of several runs, each with its own copy of the nodes, and what the last made.
fn least<N: Clone, A>(nodes: &[N], make: impl Fn(Vec<N>) -> A) -> (f64, A) {
    let mut best = Duration::MAX;
    let mut made = make(nodes.to_vec());
    for _ in 0..RUNS {
        let given = nodes.to_vec();
        let begun = Instant::now();
        made = make(given);
        best = best.min(begun.elapsed());
    }
    (best.as_secs_f64() * 1e6, made)
}

fn main() {
    println!("| nodes | kinds | words | lent | one by one, us | at once, us | the Rust, us | one by one/Rust |");
    println!("|---|---|---|---|---|---|---|---|");
    for count in [30, 300, 3_000] {
        for (kinds, given) in [("lists", lists(count)), ("mixed", distinct(7, count))] {
            let theirs: Vec<lang_ty::OutputTy> = given.iter().map(their_node).collect();
            let (single, arena) = least(&given, one_by_one);
            let (together, laid) = least(&given, at_once);
            let (rust, their_arena) = least(&theirs, by_the_rust);
            assert!(arena == laid, "the same arena");
            assert!(arena.nodes().eq(nodes(&their_arena)), "the Rust's nodes");
            let (used, (words, starts)) = (arena.words().len(), arena.lent());
            let ratio = single / rust;
            println!("| {count} | {kinds} | {used} | {words} + {starts} | {single:.1} | {together:.1} | {rust:.1} | {ratio:.1} |");
        }
    }
}
