use crate::arena::number;
use crate::{OutputTy, TyRef, TypeArena};

/// The nodes of a type, each once, in no order that matters. A type of another arena is one node.
pub(crate) struct Reach<'a> {
    arena: &'a TypeArena,
    waiting: Vec<TyRef>,
    met: Vec<bool>,
}

impl Iterator for Reach<'_> {
    type Item = TyRef;

    fn next(&mut self) -> Option<TyRef> {
        let ty = self.waiting.pop()?;
        for child in self.arena[ty].children() {
            let met = &mut self.met[number(child) as usize];
            if !std::mem::replace(met, true) {
                self.waiting.push(child);
            }
        }
        Some(ty)
    }
}

impl TypeArena {
    pub(crate) fn reach(&self, ty: TyRef) -> Reach<'_> {
        let mut met = vec![false; self.len()];
        met[number(ty) as usize] = true;
        Reach {
            arena: self,
            waiting: vec![ty],
            met,
        }
    }

    /// Whether a node of the type is such, also one in another arena.
    pub(crate) fn any_node(&self, ty: TyRef, such: fn(&OutputTy) -> bool) -> bool {
        self.reach(ty).any(|ty| match &self[ty] {
            OutputTy::Extern(owned) => owned.arena.any_node(owned.root, such),
            node => such(node),
        })
    }

    /// Whether a lambda of the type takes something else than a primitive type or a variable.
    pub fn has_non_primitive_lambda_param(&self, ty: TyRef) -> bool {
        self.reach(ty).any(|ty| match self[ty] {
            OutputTy::Lambda { param, .. } => {
                !matches!(self[param], OutputTy::Primitive(_) | OutputTy::TyVar(_))
            }
            _ => false,
        })
    }

    pub fn contains_union_or_intersection(&self, ty: TyRef) -> bool {
        self.any_node(ty, |node| {
            matches!(node, OutputTy::Union(_) | OutputTy::Intersection(_))
        })
    }

    pub fn contains_intersection(&self, ty: TyRef) -> bool {
        self.any_node(ty, |node| matches!(node, OutputTy::Intersection(_)))
    }

    pub fn contains_neg(&self, ty: TyRef) -> bool {
        self.any_node(ty, |node| matches!(node, OutputTy::Neg(_)))
    }

    pub fn contains_top_or_bottom(&self, ty: TyRef) -> bool {
        self.any_node(ty, |node| matches!(node, OutputTy::Top | OutputTy::Bottom))
    }

    pub fn contains_named(&self, ty: TyRef) -> bool {
        self.any_node(ty, |node| matches!(node, OutputTy::Named(..)))
    }
}
