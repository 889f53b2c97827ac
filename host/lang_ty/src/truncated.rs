//! A text that is cut off: plain Rust, since the library prints whole types.

use crate::{library, parens, stack};
use crate::{AttrSetTy, DisplayConfig, OutputTy, TyRef, TypeArena};

struct Cut<'a> {
    config: &'a DisplayConfig,
    text: String,
    /// Whether the text has reached its most bytes; nothing is added then.
    over: bool,
}

/// The text of a type within these limits.
pub(crate) fn text(arena: &TypeArena, ty: TyRef, config: &DisplayConfig) -> String {
    let text = String::new();
    let mut cut = Cut {
        config,
        text,
        over: false,
    };
    cut.ty(arena, ty, 0);
    cut.text
}

impl Cut<'_> {
    /// Adds a piece, or as many of its first characters as fit, and dots.
    fn push(&mut self, piece: &str) {
        if self.over {
            return;
        }
        let most = self.config.max_chars;
        if most == 0 || self.text.len() + piece.len() <= most {
            self.text.push_str(piece);
            return;
        }
        let mut end = most - self.text.len();
        while !piece.is_char_boundary(end) {
            end -= 1;
        }
        self.text.push_str(&piece[..end]);
        self.text.push_str("...");
        self.over = true;
    }

    fn too_deep(&self, depth: usize) -> bool {
        self.config.max_depth > 0 && depth >= self.config.max_depth
    }

    fn ty(&mut self, arena: &TypeArena, ty: TyRef, depth: usize) {
        if !self.over {
            stack::step(arena.levels(ty), || self.node(arena, &arena[ty], depth));
        }
    }

    fn node(&mut self, arena: &TypeArena, node: &OutputTy, depth: usize) {
        let deeper = depth + 1;
        match node {
            OutputTy::Extern(owned) => self.ty(&owned.arena, owned.root, depth),
            OutputTy::TyVar(index) => self.push(&library::tyvar_name(*index)),
            OutputTy::Primitive(primitive) => self.push(&primitive.to_string()),
            OutputTy::Bottom => self.push("never"),
            OutputTy::Top => self.push("any"),
            OutputTy::Named(name, _) => self.push(name),
            OutputTy::List(_) if self.too_deep(depth) => self.push("[...]"),
            OutputTy::List(inner) => {
                self.push("[");
                self.ty(arena, *inner, deeper);
                self.push("]");
            }
            OutputTy::Lambda { .. } if self.too_deep(depth) => self.push("... -> ..."),
            OutputTy::Lambda { param, body } => {
                self.part(arena, *param, deeper, parens::in_lambda_param);
                self.push(" -> ");
                self.ty(arena, *body, deeper);
            }
            OutputTy::AttrSet(attrs) => self.set(arena, attrs, depth),
            OutputTy::Union(list) => self.members(arena, list, " | ", depth, parens::in_union),
            OutputTy::Intersection(list) => {
                self.members(arena, list, " & ", depth, parens::in_intersection)
            }
            OutputTy::Neg(inner) => {
                self.push("~");
                self.part(arena, *inner, depth, parens::in_neg);
            }
        }
    }

    /// A child, in parentheses if its kind wants them there.
    fn part(&mut self, arena: &TypeArena, ty: TyRef, depth: usize, wants: fn(&OutputTy) -> bool) {
        if !wants(&arena[ty]) {
            return self.ty(arena, ty, depth);
        }
        self.push("(");
        self.ty(arena, ty, depth);
        self.push(")");
    }

    fn members(
        &mut self,
        arena: &TypeArena,
        list: &[TyRef],
        between: &str,
        depth: usize,
        wants: fn(&OutputTy) -> bool,
    ) {
        if self.too_deep(depth) {
            return self.push("...");
        }
        let most = self.config.max_members;
        for (at, &ty) in list.iter().enumerate() {
            if most > 0 && at >= most {
                let left = list.len() - at;
                return self.push(&format!("{between}... ({left} more)"));
            }
            if at > 0 {
                self.push(between);
            }
            self.part(arena, ty, depth + 1, wants);
        }
    }

    fn set(&mut self, arena: &TypeArena, attrs: &AttrSetTy<TyRef>, depth: usize) {
        let others = usize::from(attrs.dyn_ty.is_some()) + usize::from(attrs.open);
        let total = attrs.fields.len() + others;
        if self.too_deep(depth) {
            return self.push(&format!("{{ ... {total} fields ... }}"));
        }
        self.push("{ ");
        let most = self.config.max_fields;
        for (at, (name, &ty)) in attrs.fields.iter().enumerate() {
            if most > 0 && at >= most {
                self.push(&format!("... ({} more)", total - at));
                return self.push(" }");
            }
            let mark = if attrs.optional_fields.contains(name) {
                "?"
            } else {
                ""
            };
            self.entry(at > 0, &format!("{name}{mark}: "));
            self.ty(arena, ty, depth + 1);
        }
        let mut any = !attrs.fields.is_empty();
        if let Some(ty) = attrs.dyn_ty {
            self.entry(any, "_: ");
            self.ty(arena, ty, depth + 1);
            any = true;
        }
        if attrs.open {
            self.entry(any, "...");
        }
        self.push(" }");
    }

    /// The beginning of an entry of a set, after a comma if others stand before it.
    fn entry(&mut self, others: bool, piece: &str) {
        if others {
            self.push(", ");
        }
        self.push(piece);
    }
}
