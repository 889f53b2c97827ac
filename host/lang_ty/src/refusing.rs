//! The policy without the feature `outside-limits`: what the library refuses is a panic.

use crate::arena::{number, numbered};
use crate::library::{Change, Question};
use crate::{OutputTy, TyRef, TypeArena};

impl TypeArena {
    pub(crate) fn store(&mut self, node: OutputTy) -> TyRef {
        let laid = self.lay(node);
        laid.unwrap_or_else(|(refused, node)| refused.of_node(&node))
    }

    pub(crate) fn levels(&self, ty: TyRef) -> u32 {
        self.laid.levels(number(ty))
    }

    pub(crate) fn ask(&self, question: Question, ty: TyRef) -> u32 {
        let told = self.laid.ask(question, number(ty));
        self.answered(told, question.name(), ty)
    }

    pub(crate) fn vars(&self, ty: TyRef) -> Vec<u32> {
        let vars = self.laid.free_type_vars(number(ty));
        self.answered(vars, "free_type_vars", ty)
    }

    pub(crate) fn text(&self, ty: TyRef) -> String {
        let text = self.laid.display(number(ty));
        self.answered(text, "display", ty)
    }

    pub(crate) fn equal(&self, ty: TyRef, other: &TypeArena, other_ty: TyRef) -> bool {
        let roots = (number(ty), number(other_ty));
        let is = self.laid.structurally_eq(roots.0, &other.laid, roots.1);
        self.answered(is, "structurally_eq", ty)
    }

    pub(crate) fn change(&mut self, change: Change, ty: TyRef) -> TyRef {
        let changed = self.laid.change(change, number(ty));
        let changed = self.answered(changed, change.name(), ty);
        self.take_in();
        numbered(changed)
    }

    pub(crate) fn copied(&self, ty: TyRef) -> (TypeArena, TyRef) {
        let copied = self.laid.compact(number(ty));
        let (laid, root) = self.answered(copied, "compact", ty);
        (TypeArena::of(&laid), numbered(root))
    }
}
