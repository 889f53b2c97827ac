use crate::{OutputTy, TyRef, TypeArena};

/// The two kinds of member list.
#[derive(Clone, Copy, PartialEq, Eq)]
pub(super) enum Lists {
    Union,
    Intersection,
}

impl Lists {
    /// The kind and members of a node that is a list.
    pub fn of(node: &OutputTy) -> Option<(Lists, &[TyRef])> {
        match node {
            OutputTy::Union(members) => Some((Lists::Union, members)),
            OutputTy::Intersection(members) => Some((Lists::Intersection, members)),
            _ => None,
        }
    }

    pub fn node(self, members: Vec<TyRef>) -> OutputTy {
        match self {
            Lists::Union => OutputTy::Union(members),
            Lists::Intersection => OutputTy::Intersection(members),
        }
    }

    /// The members that a member of a list of this kind stands for: its own if it is such a list, or itself.
    pub fn splice(self, arena: &TypeArena, member: TyRef) -> Vec<TyRef> {
        match Lists::of(&arena[member]) {
            Some((lists, members)) if lists == self => members.to_vec(),
            _ => vec![member],
        }
    }
}
