//! Each limit of document 01, reached; in a wild run, passed by one.

use std::fmt::Write;
use std::sync::Arc;

use lang_ty::simplify::simplify;
use lang_ty::{AttrSetTy, OutputTy, OwnedTy, TyRef, TypeArena};
use smol_str::SmolStr;

use crate::report::{questions, say, whole};
use crate::types::{self, children, list, number, Kind, Made};

fn variables(arena: &mut TypeArena, count: u32) -> Vec<TyRef> {
    (0..count)
        .map(|index| arena.intern(OutputTy::TyVar(index)))
        .collect()
}

fn set(names: impl Iterator<Item = String>, ty: TyRef) -> OutputTy {
    let fields = names.map(|name| (SmolStr::new(name), ty)).collect();
    OutputTy::AttrSet(AttrSetTy::from_fields(fields))
}

/// A list of 64 members.
fn members(over: u32) -> (TypeArena, TyRef) {
    let mut arena = TypeArena::new();
    let all = variables(&mut arena, 64 + over);
    let list = arena.intern(OutputTy::Union(all));
    let root = arena.intern(OutputTy::Lambda {
        param: list,
        body: list,
    });
    (arena, root)
}

/// Two lists that are spliced to one of 64.
fn spliced(over: u32) -> (TypeArena, TyRef) {
    let mut arena = TypeArena::new();
    let all = variables(&mut arena, 64 + over);
    let halves = [&all[..32], &all[32..]].map(|half| arena.intern(list(false, half.to_vec())));
    let both = arena.intern(list(false, halves.to_vec()));
    let root = arena.intern(OutputTy::Lambda {
        param: both,
        body: both,
    });
    (arena, root)
}

/// A name, or one byte more than a table holds.
fn wrapped(arena: &mut TypeArena, inner: TyRef, over: u32) -> TyRef {
    let name = "n".repeat(64 + over as usize);
    arena.intern(OutputTy::Named(SmolStr::new(name), inner))
}

/// Document 01's ladder of seven steps: six passes aren't the end.
fn ladder(over: u32) -> (TypeArena, TyRef) {
    let mut made = Made::new(None);
    let top = types::ladder(&mut made, 7);
    let root = wrapped(&mut made.arena, top, over);
    (made.arena, root)
}

/// What sorting makes of the second list is there already, below all nodes of the type.
fn sorted(over: u32) -> (TypeArena, TyRef) {
    let mut arena = TypeArena::new();
    let all = variables(&mut arena, 3);
    arena.intern(OutputTy::Union(vec![all[0], all[1]]));
    wrapped(&mut arena, all[2], over);
    let lists = [[2, 1], [1, 0]].map(|[one, other]| {
        let list = arena.intern(OutputTy::Union(vec![all[one], all[other]]));
        arena.intern(OutputTy::List(list))
    });
    let root = arena.intern(OutputTy::Union(lists.to_vec()));
    (arena, root)
}

fn fields(over: u32) -> (TypeArena, TyRef) {
    let mut arena = TypeArena::new();
    let leaf = arena.intern(OutputTy::TyVar(7));
    let root = arena.intern(set((0..64 + over).map(|at| format!("f{at}")), leaf));
    (arena, root)
}

/// These names in sets of up to 64, the last first. The root is a set alone: a text of them all would be too long.
fn named(mut names: Vec<String>) -> (TypeArena, TyRef) {
    let mut arena = TypeArena::new();
    let leaf = arena.intern(OutputTy::TyVar(7));
    names.reverse();
    let mut store = |part: &[String]| arena.intern(set(part.iter().cloned(), leaf));
    let sets: Vec<TyRef> = names.chunks(64).map(&mut store).collect();
    (arena, sets[sets.len() - 1])
}

/// 4,096 names.
fn names(over: u32) -> (TypeArena, TyRef) {
    named((0..4_096 + over).map(|at| format!("n{at:04}")).collect())
}

/// Names that take 65,536 bytes, each with one for its length: 1,008 of 64 and one of 15.
fn table(over: u32) -> (TypeArena, TyRef) {
    let full = (0..1_008).map(|at| format!("{at:060} end"));
    let last = "z".repeat(15 + over as usize);
    named(full.chain([last]).collect())
}

/// 4,096 nodes.
fn nodes(over: u32) -> (TypeArena, TyRef) {
    let mut arena = TypeArena::new();
    let all = variables(&mut arena, 4_095 + over);
    let root = arena.intern(OutputTy::List(all[0]));
    (arena, root)
}

/// 16,384 words: 64 variables, 250 lists of 64 and three variables more. No call adds to the first list.
fn words(over: u32) -> (TypeArena, TyRef) {
    let mut arena = TypeArena::new();
    let mut all = variables(&mut arena, 64);
    let root = arena.intern(list(true, all.clone()));
    for at in 1..250 {
        all.rotate_left(1);
        let mut members = all.clone();
        members[0] = all[at / 64];
        arena.intern(list(true, members));
    }
    variables(&mut arena, 67 + over);
    (arena, root)
}

/// A text of 65,536 bytes.
fn text(over: u32) -> (TypeArena, TyRef) {
    let mut arena = TypeArena::new();
    let leaf = arena.intern(OutputTy::TyVar(0));
    let mut root = arena.intern(OutputTy::Named(SmolStr::new("n".repeat(64)), leaf));
    for count in [64, 15] {
        root = arena.intern(OutputTy::Union(vec![root; count]));
    }
    while arena.display(root).to_string().len() < 65_535 {
        root = arena.intern(OutputTy::List(root));
    }
    for _ in 0..=over {
        root = arena.intern(OutputTy::Neg(root));
    }
    (arena, root)
}

type Edge = fn(u32) -> (TypeArena, TyRef);

const EDGES: [(&str, Edge); 10] = [
    ("members", members),
    ("spliced", spliced),
    ("ladder", ladder),
    ("sorted", sorted),
    ("fields", fields),
    ("names", names),
    ("table", table),
    ("nodes", nodes),
    ("words", words),
    ("text", text),
];

/// Types of several other arenas in one list. Where sorting puts them rests on addresses, so it is asked whether they are in order.
fn scattered(out: &mut String) {
    let mut arena = TypeArena::new();
    let mut members = variables(&mut arena, 2);
    for _ in 0..5 {
        let mut other = TypeArena::new();
        let root = variables(&mut other, 2)[1];
        let owned = OwnedTy::new(Arc::new(other), root);
        members.push(arena.intern(OutputTy::Extern(owned)));
    }
    members.rotate_left(3);
    let given = arena.intern(OutputTy::Union(members));
    let sorted = arena.normalize_set_ops(given);
    let mut found = children(&arena[sorted]);
    let in_order = found.is_sorted_by_key(|ty| &arena[*ty]);
    found.sort();
    say!(out, "scattered {sorted:?}, {found:?} in order: {in_order}");
}

pub fn report(out: &mut String, kind: Kind) {
    let over = u32::from(kind == Kind::Wild);
    if kind == Kind::Wild {
        scattered(out);
    }
    for (name, edge) in EDGES {
        let (mut arena, root) = edge(over);
        let shown = arena.display(root).to_string();
        say!(
            out,
            "{name}: {} of {}, {} bytes: {shown}",
            number(root),
            arena.len(),
            shown.len()
        );
        questions(out, &arena, root);
        let (small, small_root) = arena.compact(root);
        say!(out, "compact {} of {}", number(small_root), small.len());
        let results = [
            simplify(&mut arena, root),
            arena.normalize_vars(root),
            arena.normalize_set_ops(root),
        ];
        say!(out, "{results:?} of {}", arena.len());
        whole(out, &arena);
    }
}
