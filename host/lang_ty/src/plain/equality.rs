use rustc_hash::FxHashSet;

use crate::{stack, AttrSetTy, OutputTy, TyRef, TypeArena};

/// Pairs that were met, by their numbers alone. A number that was met in one arena counts in another too: so does the
/// Rust, and so two types with parts in other arenas may be called equal that aren't.
type Met = FxHashSet<(TyRef, TyRef)>;

type Place<'a> = (&'a TypeArena, TyRef);

pub(crate) fn structurally_eq(left: Place, right: Place) -> bool {
    equal(left, right, &mut Met::default())
}

fn equal(left: Place, right: Place, met: &mut Met) -> bool {
    if !met.insert((left.1, right.1)) {
        return true;
    }
    let levels = left.0.levels(left.1).max(right.0.levels(right.1));
    stack::step(levels, || {
        match (left.0.get(left.1), right.0.get(right.1)) {
            (OutputTy::Extern(owned), _) => equal((&owned.arena, owned.root), right, met),
            (_, OutputTy::Extern(owned)) => equal(left, (&owned.arena, owned.root), met),
            (one, other) => {
                alike(one, other) && children_equal((left.0, one), (right.0, other), met)
            }
        }
    })
}

/// Whether two nodes are the same but for their children.
fn alike(one: &OutputTy, other: &OutputTy) -> bool {
    use OutputTy::{AttrSet, Intersection, Named, Primitive, TyVar, Union};
    match (one, other) {
        (TyVar(one), TyVar(other)) => one == other,
        (Primitive(one), Primitive(other)) => one == other,
        (Named(one, _), Named(other, _)) => one == other,
        (AttrSet(one), AttrSet(other)) => sets_alike(one, other),
        (Union(one), Union(other)) | (Intersection(one), Intersection(other)) => {
            one.len() == other.len()
        }
        _ => std::mem::discriminant(one) == std::mem::discriminant(other),
    }
}

fn sets_alike(one: &AttrSetTy<TyRef>, other: &AttrSetTy<TyRef>) -> bool {
    let marks = one.open == other.open && one.optional_fields == other.optional_fields;
    marks && one.keys().eq(other.keys())
}

fn children_equal(
    (left, one): (&TypeArena, &OutputTy),
    (right, other): (&TypeArena, &OutputTy),
    met: &mut Met,
) -> bool {
    let (mut ones, mut others) = (one.children(), other.children());
    loop {
        match (ones.next(), others.next()) {
            (Some(one), Some(other)) => {
                if !equal((left, one), (right, other), met) {
                    return false;
                }
            }
            // One set may have a type for all other fields, and the other set none.
            (one, other) => return one == other,
        }
    }
}
