use rustc_hash::FxHashSet;

use crate::arena::number;
use crate::library::Question;
use crate::{OutputTy, TyRef, TypeArena};

/// The answer as the library gives it: 0 or 1, or a node's number.
pub(crate) fn ask(arena: &TypeArena, question: Question, ty: TyRef) -> u32 {
    match question {
        Question::UnwrapNamed => number(unwrap_named(arena, ty)),
        Question::HasTypeVars => {
            u32::from(arena.any_node(ty, |node| matches!(node, OutputTy::TyVar(_))))
        }
        Question::NeedsVarNormalization => u32::from(needs_var_normalization(arena, ty)),
        Question::ContainsBareTyvar => u32::from(contains_bare_tyvar(arena, ty)),
        Question::HasSharedTyvar => u32::from(has_shared_tyvar(arena, ty)),
    }
}

fn unwrap_named(arena: &TypeArena, mut ty: TyRef) -> TyRef {
    while let OutputTy::Named(_, inner) = arena[ty] {
        ty = inner;
    }
    ty
}

fn needs_var_normalization(arena: &TypeArena, ty: TyRef) -> bool {
    match arena[ty] {
        OutputTy::Extern(_) => false,
        _ => !free_type_vars(arena, ty).is_empty(),
    }
}

/// The variables in the order of a first visit; those of another arena where its type stands.
pub(crate) fn free_type_vars(arena: &TypeArena, ty: TyRef) -> Vec<u32> {
    let mut vars = Vec::new();
    let (mut seen, mut met) = (FxHashSet::default(), FxHashSet::default());
    let mut waiting = vec![ty];
    while let Some(ty) = waiting.pop() {
        if !met.insert(ty) {
            continue;
        }
        let here = match &arena[ty] {
            OutputTy::TyVar(var) => vec![*var],
            OutputTy::Extern(owned) => owned.arena.free_type_vars(owned.root),
            _ => Vec::new(),
        };
        vars.extend(here.into_iter().filter(|&var| seen.insert(var)));
        let children = waiting.len();
        waiting.extend(arena[ty].children());
        waiting[children..].reverse();
    }
    vars
}

fn contains_bare_tyvar(arena: &TypeArena, ty: TyRef) -> bool {
    let mut met = FxHashSet::default();
    let mut waiting = vec![ty];
    while let Some(ty) = waiting.pop() {
        match &arena[ty] {
            OutputTy::TyVar(_) => return true,
            _ if !met.insert(ty) => {}
            OutputTy::Lambda { body, .. } => waiting.push(*body),
            node => waiting.extend(node.children()),
        }
    }
    false
}

fn has_shared_tyvar(arena: &TypeArena, ty: TyRef) -> bool {
    let mut seen = FxHashSet::default();
    arena.reach(ty).any(|ty| match arena[ty] {
        OutputTy::Lambda { param, .. } => match arena[param] {
            OutputTy::TyVar(var) => !seen.insert(var),
            _ => false,
        },
        _ => false,
    })
}
