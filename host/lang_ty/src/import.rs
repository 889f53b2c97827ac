use rustc_hash::FxHashMap;

use crate::{stack, OutputTy, TyRef, TypeArena};

/// Stores a type of the source in the target. The cache holds what was stored before by its number in the source, and
/// gets what is stored now.
pub fn import_from_arena(
    target: &mut TypeArena,
    source: &TypeArena,
    ty: TyRef,
    cache: &mut FxHashMap<TyRef, TyRef>,
) -> TyRef {
    if let Some(&stored) = cache.get(&ty) {
        return stored;
    }
    let import = || import_children(target, source, &source[ty], cache);
    let node = stack::step(source.levels(ty), import);
    let stored = target.intern(node);
    cache.insert(ty, stored);
    stored
}

/// The same for a node that isn't stored itself, but whose children are in the source.
pub fn import_node_from_arena(
    target: &mut TypeArena,
    source: &TypeArena,
    node: OutputTy,
    cache: &mut FxHashMap<TyRef, TyRef>,
) -> TyRef {
    let node = import_children(target, source, &node, cache);
    target.intern(node)
}

fn import_children(
    target: &mut TypeArena,
    source: &TypeArena,
    node: &OutputTy,
    cache: &mut FxHashMap<TyRef, TyRef>,
) -> OutputTy {
    node.map_children(&mut |child| import_from_arena(target, source, child, cache))
}
