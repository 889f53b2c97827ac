//! Within the limits, by both policies: names in any order, types of full depth on a small stack, arenas shared by threads,
//! and the macro.

use std::sync::Arc;
use std::thread;

use lang_ty::simplify::simplify;
use lang_ty::{
    arc_ty, import_from_arena, AttrSetTy, DisplayConfig, OutputTy, OwnedTy, TyRef, TypeArena,
};
use smol_str::SmolStr;

#[test]
fn names_enter_at_their_rank() {
    let mut arena = TypeArena::new();
    let int = arc_ty!(arena, Int);
    // Neither rising nor falling, so that names move while nodes have them.
    let name = |at: u32| format!("name{:04}", at * 97 % 4096);
    let mut sets = Vec::new();
    for at in 0..4095 {
        let fields = [(name(at), int), (name(at / 2), int)];
        let fields = fields.iter().map(|(name, ty)| (name.as_str(), *ty));
        let set = AttrSetTy::from_internal(fields, false);
        sets.push(arena.intern(OutputTy::AttrSet(set)));
    }
    for (at, &ty) in (0..).zip(&sets) {
        let mut both = [name(at), name(at / 2)];
        both.sort();
        let text = match &both {
            [one, other] if one == other => format!("{{ {one}: int }}"),
            [one, other] => format!("{{ {one}: int, {other}: int }}"),
        };
        assert_eq!(arena.display(ty).to_string(), text);
        let stored = arena[ty].clone();
        assert_eq!(arena.intern(stored), ty, "it is found under its new words");
    }
}

#[test]
fn a_call_that_adds_more_than_there_is() {
    let mut arena = TypeArena::new();
    let mut ty = arc_ty!(arena, # 0);
    for index in 1..64 {
        let var = arena.intern(OutputTy::TyVar(index));
        ty = arena.intern(OutputTy::Union(vec![var, ty]));
    }
    // Each of the 63 unions gets all members of those in it.
    let flat = arena.normalize_set_ops(ty);
    let OutputTy::Union(members) = &arena[flat] else {
        panic!("a union stays one")
    };
    let vars: Vec<OutputTy> = members
        .iter()
        .map(|&member| arena[member].clone())
        .collect();
    assert!(vars.into_iter().eq((0..64).map(OutputTy::TyVar)));
}

/// A chain of so many nodes over the variable 0, of lists, lambdas, unions and negations in turn.
fn chain(count: usize) -> (TypeArena, TyRef) {
    let mut arena = TypeArena::new();
    let (var, never) = (arc_ty!(arena, # 0), arc_ty!(arena, Bottom));
    let mut ty = var;
    while arena.len() < count {
        ty = arena.intern(match arena.len() % 4 {
            0 => OutputTy::List(ty),
            1 => OutputTy::Lambda {
                param: var,
                body: ty,
            },
            2 => OutputTy::Union(vec![ty, never]),
            _ => OutputTy::Neg(ty),
        });
    }
    (arena, ty)
}

#[test]
fn the_deepest_types() {
    // A test's thread has 2 MiB, which is less than the library's calls need for these.
    let (arena, ty) = chain(4096);
    assert!(arena.display(ty).to_string().contains('a'));
    assert_eq!(arena.free_type_vars(ty), [0]);
    let (alone, root) = arena.compact(ty);
    assert_eq!((alone.len(), root), (4096, ty));
    let mut other = TypeArena::new();
    let imported = import_from_arena(&mut other, &arena, ty, &mut Default::default());
    assert_eq!(imported, ty);
    let cut = DisplayConfig {
        max_chars: 60_000,
        ..DisplayConfig::full()
    };
    assert_eq!(
        other.display_truncated(ty, &cut),
        arena.display(ty).to_string()
    );
    let (one, two) = (Arc::new(arena), Arc::new(alone));
    assert!(OwnedTy::new(one, ty).structurally_eq(&OwnedTy::new(two, root)));

    let (arena, ty) = chain(2000);
    let changed = |change: fn(&mut TypeArena, TyRef) -> TyRef| {
        let mut arena = arena.clone();
        let after = change(&mut arena, ty);
        (
            arena.len(),
            arena.display(after).to_string().matches("never").count(),
        )
    };
    let unions = arena.display(ty).to_string().matches("never").count();
    assert_eq!(changed(TypeArena::normalize_vars), (2000, unions));
    assert_eq!(
        changed(TypeArena::normalize_replacing_unknown),
        (2000, unions)
    );
    assert_eq!(changed(TypeArena::normalize_set_ops), (3998, unions));
    assert_eq!(changed(simplify).1, 0, "no union is left");
}

#[test]
fn threads_share_an_arena() {
    fn sent_and_shared<T: Send + Sync>(value: T) -> T {
        value
    }
    let (arena, ty) = sent_and_shared(chain(300));
    let arena = Arc::new(arena);
    let text = arena.display(ty).to_string();
    let ask = |arena: &Arc<TypeArena>| {
        let (alone, root) = arena.compact(ty);
        let alone = OwnedTy::new(Arc::new(alone), root);
        assert!(alone.structurally_eq(&OwnedTy::new(arena.clone(), ty)));
        assert!(arena.has_type_vars(ty) && arena.display(ty).to_string() == text);
    };
    thread::scope(|scope| {
        for _ in 0..4 {
            scope.spawn(|| (0..20).for_each(|_| ask(&arena)));
        }
    });
}

#[test]
fn every_arm_of_the_macro() {
    let mut arena = TypeArena::new();
    let arena = &mut arena;
    let ty = arc_ty!(arena, {
        "a": (union!(Null, (neg!(Bool)), (# 0))),
        "b": (isect!([Float], (TyVar(1)))),
        "c": (named!("Roll", { "d": Uri, })),
        "e": ((Path -> Number) -> String -> { ; ... }),
        "f": Bottom,
        "g": Top
    });
    let text = "{ a: null | ~bool | a, b: [float] & b, c: Roll, e: (path -> number) -> string -> { ... }, f: never, g: any }";
    assert_eq!(arena.display(ty).to_string(), text);
    assert_eq!(
        arena[TyRef::from_raw(4)],
        OutputTy::Union([0, 2, 3].map(TyRef::from_raw).to_vec())
    );
    let OutputTy::AttrSet(set) = &arena[ty] else {
        panic!("a set was written down")
    };
    let roll = arena.unwrap_named(set.fields[&SmolStr::new("c")]);
    assert_eq!(arena.display(roll).to_string(), "{ d: uri }");
}
