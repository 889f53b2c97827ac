//! What lies outside the library's limits, one thing each.

use std::collections::BTreeMap;
use std::sync::Arc;

use lang_ty::{AttrSetTy, OutputTy, OwnedTy, TyRef, TypeArena};
use smol_str::SmolStr;

/// An arena with the variable 0 alone, and its number.
pub fn with_var() -> (TypeArena, TyRef) {
    let mut arena = TypeArena::new();
    let var = arena.intern(OutputTy::TyVar(0));
    (arena, var)
}

pub fn set(names: impl IntoIterator<Item = String>, ty: TyRef) -> AttrSetTy<TyRef> {
    let fields = names.into_iter().map(|name| (SmolStr::new(name), ty));
    AttrSetTy::from_fields(fields.collect::<BTreeMap<_, _>>())
}

pub fn numbered_names(count: usize) -> impl Iterator<Item = String> {
    (0..count).map(|at| format!("name{at:04}"))
}

/// Nodes over the variable 0 that can't be laid, with the number of the refusal.
pub fn unlaid(var: TyRef) -> Vec<(u32, OutputTy)> {
    let (arena, root) = with_var();
    let elsewhere = OwnedTy::new(Arc::new(arena), root);
    let mut marked = set(["there".to_string()], var);
    marked.optional_fields.insert(SmolStr::new("elsewhere"));
    let named = |name: &str| OutputTy::Named(SmolStr::new(name), var);
    vec![
        (3, OutputTy::Extern(elsewhere)),
        (3, OutputTy::Union(Vec::new())),
        (3, OutputTy::Intersection(Vec::new())),
        (3, OutputTy::Union(vec![var; 65])),
        (3, OutputTy::Intersection(vec![var; 65])),
        (3, OutputTy::AttrSet(set(numbered_names(65), var))),
        (3, OutputTy::AttrSet(marked)),
        (4, OutputTy::List(TyRef::from_raw(7))),
        (1, named("")),
        (1, named(&"n".repeat(65))),
        (1, named("caf\u{e9}")),
        (1, named("two\nlines")),
        (1, named("~\u{7f}")),
    ]
}

/// An arena with its variable 0 and sets with these names, and a node with one name more.
fn with_names(names: &[String], another: &str) -> (TypeArena, OutputTy) {
    let (mut arena, var) = with_var();
    for names in names.chunks(64) {
        arena.intern(OutputTy::AttrSet(set(names.to_vec(), var)));
    }
    (arena, OutputTy::Named(SmolStr::new(another), var))
}

/// An arena with 4,096 names, and a node with one name more.
pub fn one_name_more() -> (TypeArena, OutputTy) {
    let all: Vec<String> = numbered_names(4096).collect();
    with_names(&all, "another")
}

/// An arena with 1,008 names of 64 bytes, which leave 16 bytes of a table, and a node with one of so many bytes.
pub fn long_names_and(length: usize) -> (TypeArena, OutputTy) {
    let all: Vec<String> = (0..1008).map(|at| format!("{at:064}")).collect();
    with_names(&all, &"n".repeat(length))
}

/// An arena of 4,096 nodes, with a type that `simplify` would add a node for.
pub fn full() -> (TypeArena, TyRef) {
    let (mut arena, var) = with_var();
    let top = arena.intern(OutputTy::Top);
    let either = arena.intern(OutputTy::Intersection(vec![var, top, top]));
    let list = arena.intern(OutputTy::List(either));
    let list = arena.intern(OutputTy::Neg(list));
    for index in 1..=4096 - arena.len() as u32 {
        arena.intern(OutputTy::TyVar(index));
    }
    (arena, list)
}

/// A union of two unions that have 66 different members together.
pub fn many_members() -> (TypeArena, TyRef) {
    let mut arena = TypeArena::new();
    let mut half = |from: u32| {
        let members = (from..from + 33).map(|index| {
            let var = arena.intern(OutputTy::TyVar(index));
            arena.intern(OutputTy::List(var))
        });
        let members = members.collect();
        arena.intern(OutputTy::Union(members))
    };
    let halves = vec![half(0), half(33)];
    let whole = arena.intern(OutputTy::Union(halves));
    (arena, whole)
}

/// A type whose text doubles with each of 17 nodes.
pub fn long_text() -> (TypeArena, TyRef) {
    let (mut arena, mut ty) = with_var();
    for _ in 0..17 {
        ty = arena.intern(OutputTy::Lambda {
            param: ty,
            body: ty,
        });
    }
    (arena, ty)
}
