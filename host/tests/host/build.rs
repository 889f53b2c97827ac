//! Nodes in short.

use coombtray::{AttrSetTy, Names, OutputTy, PrimitiveTy, Refusal, TyRef, TypeArena};

pub fn empty() -> TypeArena {
    TypeArena::new(Names::default())
}

pub fn named(names: &[&str]) -> TypeArena {
    TypeArena::new(Names::new(names).unwrap())
}

pub fn put(arena: &mut TypeArena, node: OutputTy) -> TyRef {
    arena.intern(node).unwrap()
}

pub fn var(arena: &mut TypeArena, index: u32) -> TyRef {
    put(arena, OutputTy::TyVar(index))
}

pub fn primitive(arena: &mut TypeArena, of: PrimitiveTy) -> TyRef {
    put(arena, OutputTy::Primitive(of))
}

pub fn int(arena: &mut TypeArena) -> TyRef {
    primitive(arena, PrimitiveTy::Int)
}

pub fn list(arena: &mut TypeArena, inner: TyRef) -> TyRef {
    put(arena, OutputTy::List(inner))
}

pub fn lambda(arena: &mut TypeArena, param: TyRef, body: TyRef) -> TyRef {
    put(arena, OutputTy::Lambda { param, body })
}

pub fn union(arena: &mut TypeArena, members: &[TyRef]) -> TyRef {
    put(arena, OutputTy::Union(members.to_vec()))
}

pub fn intersection(arena: &mut TypeArena, members: &[TyRef]) -> TyRef {
    put(arena, OutputTy::Intersection(members.to_vec()))
}

pub fn set(arena: &mut TypeArena, fields: &[(&str, TyRef)]) -> TyRef {
    let attrs = AttrSetTy::from_internal(fields.iter().copied(), false);
    put(arena, OutputTy::AttrSet(attrs))
}

/// Whether an arena's memory is what it was: the same nodes, as much lent, and sound, so that all past the nodes is zeros.
pub fn untouched(arena: &TypeArena, before: &TypeArena) -> bool {
    let judged = arena.count_reachable(TyRef::from_raw(0));
    let sound = judged.map_err(Refusal::number) != Err(2);
    sound && arena == before && arena.lent() == before.lent()
}

/// The sheet of an arena: name count, node count and root, then the table, then the node words.
pub fn sheet(arena: &TypeArena, root: u32) -> Vec<u8> {
    let counts = [arena.names().len() as u32, arena.len() as u32, root];
    let counts = counts
        .into_iter()
        .flat_map(|count| (count as u16).to_be_bytes());
    let table = arena.names().table().iter().copied();
    let words = arena.words().iter().flat_map(|word| word.to_be_bytes());
    counts.chain(table).chain(words).collect()
}
