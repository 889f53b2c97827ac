//! Node order. A node alone has no arena, but the order rests on nothing else than how the children stand to each other,
//! and the names: so the two nodes are laid over variables in their children's places, and the library compares them.

use std::cmp::Ordering;

use crate::laid::Laid;
use crate::refusal::Refused;
use crate::{OutputTy, TyRef};

impl Ord for OutputTy {
    fn cmp(&self, other: &Self) -> Ordering {
        by_library(self, other).unwrap_or_else(|_| by_hand(self, other))
    }
}

impl PartialOrd for OutputTy {
    fn partial_cmp(&self, other: &Self) -> Option<Ordering> {
        Some(self.cmp(other))
    }
}

/// Refused where one of the two can't be laid.
fn by_library(left: &OutputTy, right: &OutputTy) -> Result<Ordering, Refused> {
    let mut children: Vec<TyRef> = left.children().chain(right.children()).collect();
    children.sort();
    children.dedup();
    let mut laid = Laid::default();
    // No variable is laid twice.
    let free = (0..)
        .map(OutputTy::TyVar)
        .filter(|var| var != left && var != right);
    for (var, _) in free.zip(&children) {
        laid.place(&var, |_| None)?;
    }
    let child = |ty: TyRef| children.binary_search(&ty).ok().map(|at| at as u32);
    let left = laid.place(left, child)?;
    let right = laid.place(right, child)?;
    laid.compare(left, right)
}

/// The place of the kind in node order.
fn rank(node: &OutputTy) -> u8 {
    match node {
        OutputTy::Bottom => 0,
        OutputTy::Top => 1,
        OutputTy::Primitive(_) => 2,
        OutputTy::TyVar(_) => 3,
        OutputTy::List(_) => 4,
        OutputTy::Lambda { .. } => 5,
        OutputTy::AttrSet(_) => 6,
        OutputTy::Union(_) => 7,
        OutputTy::Intersection(_) => 8,
        OutputTy::Named(..) => 9,
        OutputTy::Neg(_) => 10,
        OutputTy::Extern(_) => 11,
    }
}

/// The same order for nodes that the library doesn't have: by kind, then by what stands in them from left to right.
pub(crate) fn by_hand(left: &OutputTy, right: &OutputTy) -> Ordering {
    use OutputTy::{AttrSet, Extern, Named, Primitive, TyVar};
    let kinds = rank(left).cmp(&rank(right));
    kinds.then_with(|| match (left, right) {
        (TyVar(one), TyVar(other)) => one.cmp(other),
        (Primitive(one), Primitive(other)) => one.cmp(other),
        (Extern(one), Extern(other)) => one.cmp(other),
        (Named(one, _), Named(other, _)) if one != other => one.cmp(other),
        (AttrSet(one), AttrSet(other)) => {
            let fields = one.fields.cmp(&other.fields);
            let rest = (one.dyn_ty, one.open, &one.optional_fields);
            fields.then_with(|| rest.cmp(&(other.dyn_ty, other.open, &other.optional_fields)))
        }
        _ => left.children().cmp(right.children()),
    })
}
