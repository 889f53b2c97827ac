use rustc_hash::FxHashMap;

use super::lists::Lists;
use super::questions::free_type_vars;
use crate::{order, stack, OutputTy, Substitutions, TyRef, TypeArena};

/// What each node became.
type Became = FxHashMap<TyRef, TyRef>;

pub(crate) fn normalize_vars(arena: &mut TypeArena, ty: TyRef) -> TyRef {
    let vars = free_type_vars(arena, ty);
    if vars.is_empty() {
        return ty;
    }
    let numbers: Substitutions = vars.into_iter().zip(0..).collect();
    renumber(arena, ty, &numbers, &mut Became::default())
}

pub(crate) fn normalize_replacing_unknown(arena: &mut TypeArena, ty: TyRef) -> TyRef {
    match arena[ty] {
        OutputTy::TyVar(_) => arena.intern(OutputTy::TyVar(u32::MAX)),
        _ => normalize_vars(arena, ty),
    }
}

fn renumber(
    arena: &mut TypeArena,
    ty: TyRef,
    numbers: &Substitutions,
    became: &mut Became,
) -> TyRef {
    if let Some(&known) = became.get(&ty) {
        return known;
    }
    let node = arena[ty].clone();
    let node = stack::step(arena.levels(ty), || match node {
        OutputTy::TyVar(var) => OutputTy::TyVar(numbers[&var]),
        node => node.map_children(&mut |child| renumber(arena, child, numbers, became)),
    });
    let ty_after = arena.intern(node);
    became.insert(ty, ty_after);
    ty_after
}

pub(crate) fn normalize_set_ops(arena: &mut TypeArena, ty: TyRef) -> TyRef {
    flatten(arena, ty, &mut Became::default())
}

fn flatten(arena: &mut TypeArena, ty: TyRef, became: &mut Became) -> TyRef {
    if let Some(&known) = became.get(&ty) {
        return known;
    }
    let node = arena[ty].clone();
    let ty_after = stack::step(arena.levels(ty), || match Lists::of(&node) {
        Some((lists, members)) => flat_list(arena, lists, members, became),
        None => {
            let node = node.map_children(&mut |child| flatten(arena, child, became));
            arena.intern(node)
        }
    });
    became.insert(ty, ty_after);
    ty_after
}

/// The members of a list and of those of its members that are lists of its kind, sorted and each once.
fn flat_list(arena: &mut TypeArena, lists: Lists, members: &[TyRef], became: &mut Became) -> TyRef {
    let mut flat = Vec::new();
    for &member in members {
        let member = flatten(arena, member, became);
        flat.extend(lists.splice(arena, member));
    }
    flat.sort_by(|&one, &other| order::by_hand(&arena[one], &arena[other]));
    flat.dedup();
    match flat[..] {
        [only] => only,
        _ => arena.intern(lists.node(flat)),
    }
}
