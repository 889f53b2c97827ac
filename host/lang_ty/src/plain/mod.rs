//! What the library answers, by plain Rust, for what it refuses. It isn't proved.

mod equality;
mod lists;
mod questions;
mod rewriting;
mod simplification;

use rustc_hash::FxHashMap;

use crate::library::Change;
use crate::{import_from_arena, truncated, DisplayConfig, OutputTy, TyRef, TypeArena};

pub(crate) use equality::structurally_eq;
pub(crate) use questions::{ask, free_type_vars};

/// The whole text is the one that is cut off nowhere.
pub(crate) fn display(arena: &TypeArena, ty: TyRef) -> String {
    truncated::text(arena, ty, &DisplayConfig::full())
}

pub(crate) fn compact(arena: &TypeArena, ty: TyRef) -> (TypeArena, TyRef) {
    let mut alone = TypeArena::new();
    let root = import_from_arena(&mut alone, arena, ty, &mut FxHashMap::default());
    (alone, root)
}

pub(crate) fn change(arena: &mut TypeArena, change: Change, ty: TyRef) -> TyRef {
    // A type of another arena is finished there.
    let elsewhere = matches!(arena[ty], OutputTy::Extern(_));
    match change {
        Change::Simplify => simplification::simplify(arena, ty),
        _ if elsewhere => ty,
        Change::Vars => rewriting::normalize_vars(arena, ty),
        Change::ReplacingUnknown => rewriting::normalize_replacing_unknown(arena, ty),
        Change::SetOps => rewriting::normalize_set_ops(arena, ty),
    }
}
