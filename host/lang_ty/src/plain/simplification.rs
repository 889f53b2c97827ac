use rustc_hash::{FxHashMap, FxHashSet};

use super::lists::Lists;
use crate::{stack, OutputTy, TyRef, TypeArena};

/// One pass, then up to five until one changes nothing.
pub(crate) fn simplify(arena: &mut TypeArena, ty: TyRef) -> TyRef {
    let mut ty = pass(arena, ty);
    for _ in 0..5 {
        let before = ty;
        ty = pass(arena, ty);
        if ty == before {
            break;
        }
    }
    ty
}

fn pass(arena: &mut TypeArena, ty: TyRef) -> TyRef {
    let one_signed = one_signed(arena, ty);
    let dropping = !one_signed.is_empty();
    let mut pass = Pass {
        arena,
        one_signed,
        became: FxHashMap::default(),
    };
    pass.ty(ty, dropping)
}

/// The variables that stand with one sign alone. A lambda's param and `Neg` turn the sign.
fn one_signed(arena: &TypeArena, ty: TyRef) -> FxHashSet<u32> {
    let (mut met, mut vars) = (FxHashSet::default(), FxHashSet::default());
    let mut waiting = vec![(ty, true)];
    while let Some((ty, sign)) = waiting.pop() {
        if !met.insert((ty, sign)) {
            continue;
        }
        match &arena[ty] {
            OutputTy::TyVar(var) => {
                vars.insert((*var, sign));
            }
            OutputTy::Neg(inner) => waiting.push((*inner, !sign)),
            OutputTy::Lambda { param, body } => waiting.extend([(*param, !sign), (*body, sign)]),
            node => waiting.extend(node.children().map(|child| (child, sign))),
        }
    }
    let single = vars
        .iter()
        .filter(|(var, sign)| !vars.contains(&(*var, !sign)));
    single.map(|&(var, _)| var).collect()
}

struct Pass<'a> {
    arena: &'a mut TypeArena,
    one_signed: FxHashSet<u32>,
    /// What each node became, with variables dropped or not.
    became: FxHashMap<(TyRef, bool), TyRef>,
}

impl Pass<'_> {
    fn ty(&mut self, ty: TyRef, dropping: bool) -> TyRef {
        if let Some(&known) = self.became.get(&(ty, dropping)) {
            return known;
        }
        let node = self.arena[ty].clone();
        let ty_after = stack::step(self.arena.levels(ty), || match Lists::of(&node) {
            Some((lists, members)) => self.list(lists, members, dropping),
            None => {
                let node = node.map_children(&mut |child| self.ty(child, dropping));
                self.arena.intern(node)
            }
        });
        self.became.insert((ty, dropping), ty_after);
        ty_after
    }

    /// Whether a member is a variable to be dropped, or `Neg` of one.
    fn falls(&self, member: TyRef) -> bool {
        let bare = match self.arena[member] {
            OutputTy::Neg(inner) => inner,
            _ => member,
        };
        match self.arena[bare] {
            OutputTy::TyVar(var) => self.one_signed.contains(&var),
            _ => false,
        }
    }

    fn list(&mut self, lists: Lists, members: &[TyRef], dropping: bool) -> TyRef {
        // What says nothing in such a list, and what says all.
        let (idle, whole) = match lists {
            Lists::Union => (OutputTy::Bottom, OutputTy::Top),
            Lists::Intersection => (OutputTy::Top, OutputTy::Bottom),
        };
        let mut kept = Vec::new();
        for &member in members {
            if dropping && self.falls(member) {
                continue;
            }
            let member = self.ty(member, dropping);
            if self.arena[member] != idle {
                kept.push(member);
            }
        }
        if let Some(&all) = kept.iter().find(|&&member| self.arena[member] == whole) {
            return all;
        }
        let mut seen = FxHashSet::default();
        let each = kept
            .into_iter()
            .flat_map(|member| lists.splice(self.arena, member));
        let each: Vec<TyRef> = each.filter(|&member| seen.insert(member)).collect();
        match each[..] {
            // An empty list has no first member, and is a panic, as it is in the Rust.
            [] => self.ty(members[0], false),
            [only] => only,
            _ => self.arena.intern(lists.node(each)),
        }
    }
}
