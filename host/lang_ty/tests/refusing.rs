//! The policy without the feature: a panic that says the number, who caused it and which node, and changes nothing.
#![cfg(not(feature = "outside-limits"))]

mod common;

use std::panic::{catch_unwind, AssertUnwindSafe};

use common::{full, long_names_and, long_text, many_members, one_name_more, unlaid, with_var};
use lang_ty::simplify::simplify;
use lang_ty::{OutputTy, TyRef, TypeArena};

/// What a call that must panic says, after which the arena is as it was.
fn said<T>(arena: &mut TypeArena, call: impl FnOnce(&mut TypeArena) -> T) -> String {
    let nodes: Vec<OutputTy> = nodes(arena);
    let panic = catch_unwind(AssertUnwindSafe(|| call(arena))).err();
    let panic = panic.expect("it is refused");
    assert!(nodes == self::nodes(arena), "a refusal changes nothing");
    panic.downcast_ref::<String>().expect("a text").clone()
}

fn nodes(arena: &TypeArena) -> Vec<OutputTy> {
    let numbers = 0..arena.len() as u32;
    numbers
        .map(|at| arena[TyRef::from_raw(at)].clone())
        .collect()
}

fn refused(said: &str, number: u32, who: &str, node: &str) {
    let begin = format!("lang_ty: refused {number}, caused by {who}: ");
    assert!(said.starts_with(&begin), "{said}");
    assert!(said.ends_with(node), "{said}");
}

const HOST: &str = "the host that lends memory";
const AUTHOR: &str = "the author of the node";
const SIZE: &str = "the size of the work";

#[test]
fn nodes_that_cannot_be_laid() {
    let (mut arena, var) = with_var();
    for (number, node) in unlaid(var) {
        let who = if number == 1 { HOST } else { AUTHOR };
        let said = said(&mut arena, |arena| arena.intern(node.clone()));
        refused(&said, number, who, &format!("; the node is {node:?}"));
    }
    // The arena goes on.
    let list = arena.intern(OutputTy::List(var));
    assert_eq!(arena.display(list).to_string(), "[a]");
}

#[test]
fn a_name_too_many() {
    let (mut arena, node) = one_name_more();
    let said = said(&mut arena, |arena| arena.intern(node.clone()));
    refused(&said, 1, HOST, &format!("; the node is {node:?}"));
    let last = TyRef::from_raw(arena.len() as u32 - 1);
    assert!(arena.display(last).to_string().ends_with(", name4095: a }"));
}

#[test]
fn a_byte_too_many() {
    let (mut arena, node) = long_names_and(16);
    let said = said(&mut arena, |arena| arena.intern(node.clone()));
    refused(&said, 1, HOST, &format!("; the node is {node:?}"));
    let (mut arena, node) = long_names_and(15);
    let named = arena.intern(node);
    assert_eq!(arena.display(named).to_string(), "n".repeat(15));
}

#[test]
fn no_room() {
    let (mut arena, list) = full();
    let node = OutputTy::List(list);
    let stored = said(&mut arena, |arena| arena.intern(node.clone()));
    refused(&stored, 7, SIZE, &format!("; the node is {node:?}"));
    let simplified = said(&mut arena, |arena| simplify(arena, list));
    let root = format!("; simplify of node 4, {:?}", arena[list]);
    refused(&simplified, 7, SIZE, &root);
    // What is there is found in a full arena.
    let there = arena[list].clone();
    assert_eq!(arena.intern(there), list);
}

#[test]
fn too_many_members_and_too_long_a_text() {
    let (mut arena, whole) = many_members();
    let root = format!("of node {}, {:?}", whole.into_raw(), arena[whole]);
    let simplified = said(&mut arena, |arena| simplify(arena, whole));
    refused(&simplified, 8, SIZE, &format!("; simplify {root}"));
    let sorted = said(&mut arena, |arena| arena.normalize_set_ops(whole));
    refused(&sorted, 8, SIZE, &format!("; normalize_set_ops {root}"));

    let (mut arena, long) = long_text();
    let printed = said(&mut arena, |arena| arena.display(long).to_string());
    let node = format!("; display of node 17, {:?}", arena[long]);
    refused(&printed, 9, SIZE, &node);
}

#[test]
fn no_such_root() {
    let (mut arena, _) = with_var();
    let asked = said(&mut arena, |arena| arena.has_type_vars(TyRef::from_raw(1)));
    let end = "; has_type_vars of node 1, which isn't there";
    refused(&asked, 6, "the author of the call", end);
}
