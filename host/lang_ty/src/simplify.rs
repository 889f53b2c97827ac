//! Dropping the variables of a type that say nothing.

use crate::library::Change;
use crate::{TyRef, TypeArena};

/// The type without the variables that occur with one sign alone in unions and intersections, by up to six passes of the
/// library; new nodes are stored in the arena.
pub fn simplify(arena: &mut TypeArena, ty: TyRef) -> TyRef {
    arena.change(Change::Simplify, ty)
}
