//! The policy with the feature: what the library refuses is answered and counted, and what it doesn't isn't.
#![cfg(feature = "outside-limits")]

mod common;

use common::{full, long_names_and, long_text, many_members, one_name_more, unlaid, with_var};
use lang_ty::outside_limits::{counts, Counts};
use lang_ty::simplify::simplify;
use lang_ty::{OutputTy, TyRef, TypeArena};

/// What was counted by the work.
fn counted<T>(work: impl FnOnce() -> T) -> (T, Counts, u64) {
    let before = counts();
    let done = work();
    let after = counts();
    let one = Counts {
        simplify: after.simplify - before.simplify,
        display: after.display - before.display,
        normalize_set_ops: after.normalize_set_ops - before.normalize_set_ops,
        ..Counts::default()
    };
    (done, one, after.total() - before.total())
}

/// A type within the limits, in an arena that has others: nothing is counted.
fn others_still_go_to_the_library(arena: &mut TypeArena, var: TyRef) {
    let work = || {
        let float = arena.intern(OutputTy::Primitive(lang_ty::PrimitiveTy::Float));
        let either = arena.intern(OutputTy::Union(vec![var, float]));
        let list = arena.intern(OutputTy::List(either));
        let before = arena.len() as u32;
        let simplified = simplify(arena, list);
        assert_eq!(simplified.into_raw(), before, "the new node comes last");
        let sorted = arena.normalize_set_ops(list);
        assert!(arena.has_type_vars(sorted) && arena.free_type_vars(list) == [0]);
        let (alone, root) = arena.compact(simplified);
        assert_eq!(alone.len(), 2);
        (
            arena.display(list).to_string(),
            alone.display(root).to_string(),
        )
    };
    let (texts, _, total) = counted(work);
    assert_eq!(texts, ("[a | float]".to_string(), "[float]".to_string()));
    assert_eq!(total, 0, "the library answered");
}

fn nodes_that_cannot_be_laid() {
    for (_, node) in unlaid(TyRef::from_raw(0)) {
        let (mut arena, var) = with_var();
        let odd = arena.intern(node.clone());
        assert_eq!(arena.intern(node.clone()), odd, "it is stored once");
        // A child that isn't there can't be printed; all else can.
        if !matches!(node, OutputTy::List(_)) {
            let (text, counts, total) = counted(|| arena.display(odd).to_string());
            assert!(total == 1 && counts.display == 1, "{text}");
        }
        others_still_go_to_the_library(&mut arena, var);
    }
}

fn more_names_and_nodes_than_fit() {
    let (mut arena, node) = one_name_more();
    let odd = arena.intern(node);
    let (text, _, total) = counted(|| arena.display(odd).to_string());
    assert_eq!(
        (text.as_str(), total),
        ("another", 0),
        "its one name fits in a table"
    );
    others_still_go_to_the_library(&mut arena, TyRef::from_raw(0));

    let (mut arena, node) = long_names_and(16);
    let odd = arena.intern(node);
    let (text, _, total) = counted(|| arena.display(odd).to_string());
    assert_eq!((text, total), ("n".repeat(16), 0), "so does this one");

    let (mut arena, list) = full();
    let (simplified, _, total) = counted(|| simplify(&mut arena, list));
    assert_eq!(
        (simplified.into_raw(), total),
        (4097, 0),
        "the type alone has room"
    );
    assert_eq!(arena.display(simplified).to_string(), "~[a]");
    others_still_go_to_the_library(&mut arena, TyRef::from_raw(0));
}

fn more_members_and_text_than_fit() {
    let (mut arena, whole) = many_members();
    let (flat, counts, total) = counted(|| simplify(&mut arena, whole));
    assert_eq!((counts.simplify, total), (1, 1));
    assert!(matches!(&arena[flat], OutputTy::Union(members) if members.len() == 66));
    let (sorted, counts, total) = counted(|| arena.normalize_set_ops(whole));
    assert_eq!((counts.normalize_set_ops, total), (1, 1));
    assert_eq!(sorted, flat, "the members stood in order");

    let (arena, long) = long_text();
    let (text, counts, total) = counted(|| arena.display(long).to_string());
    assert_eq!((counts.display, total), (1, 1));
    // Each step writes the type before it twice, once in parentheses, and an arrow.
    let length = (0..17).fold(1, |length, step| 2 * length + if step > 0 { 6 } else { 4 });
    assert_eq!(text.len(), length);
}

/// One test, since the counts are the process's.
#[test]
fn outside_the_limits() {
    nodes_that_cannot_be_laid();
    more_names_and_nodes_than_fit();
    more_members_and_text_than_fit();
}
