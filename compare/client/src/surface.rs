//! What is public and needs no random type: primitives, configurations, the macro, sets and types of inference over other children.

use std::collections::{BTreeMap, BTreeSet, HashMap, HashSet};
use std::fmt::{Debug, Display, Write};
use std::hash::Hash;
use std::panic::{RefUnwindSafe, UnwindSafe};
use std::sync::Arc;

// A module of which the project has no file: empty both ways.
#[allow(unused_imports)]
use lang_ty::disjoint;
use lang_ty::stack::{with_stack, STACK_GROW_SIZE, STACK_RED_ZONE, WORKER_STACK_SIZE};
use lang_ty::{
    arc_ty, AttrSetTy, DisplayConfig, OutputTy, OwnedTy, PrimitiveTy, RefType, Substitutions, Ty,
    TyRef, TypeArena, TypeDisplay,
};
use smol_str::SmolStr;

use crate::primitives::PRIMITIVES;
use crate::report::{hash, named_configurations, say, whole};
use crate::types::numbered;

/// That a type has these traits is a matter of compiling.
fn is_shared<T: Send + Sync + UnwindSafe + RefUnwindSafe>() {}
fn is_value<T: Clone + Eq + Hash + Debug>() {}
fn is_ordered<T: Ord + Clone + Eq + Hash + Debug>() {}
fn is_shown<T: Display>() {}
fn is_plain<T: Copy + Debug>() {}
fn is_ref<T: RefType>() {}

fn traits() {
    is_shared::<TypeArena>();
    is_shared::<OwnedTy>();
    is_shared::<OutputTy>();
    is_shared::<AttrSetTy<TyRef>>();
    is_shared::<Ty<TyRef>>();
    is_shared::<TypeDisplay<'_>>();
    is_ordered::<lang_ty::arc_ty::OutputTy>();
    is_ordered::<lang_ty::arena::OwnedTy>();
    is_ordered::<AttrSetTy<TyRef>>();
    is_ordered::<lang_ty::arena::TyRef>();
    is_ordered::<lang_ty::arc_ty::TyRef>();
    is_ordered::<PrimitiveTy>();
    is_value::<Ty<String, &str>>();
    is_value::<AttrSetTy<SmolStr>>();
    is_shown::<lang_ty::arena::TypeDisplay<'_>>();
    is_shown::<OwnedTy>();
    is_shown::<PrimitiveTy>();
    is_plain::<lang_ty::arc_ty::DisplayConfig>();
    is_plain::<PrimitiveTy>();
    is_ref::<TyRef>();
    is_ref::<String>();
}

fn primitives(out: &mut String) {
    for one in PRIMITIVES {
        let answers = [one.is_number(), one.is_float(), one.is_addable()];
        let below = PRIMITIVES.map(|other| u8::from(one.is_subtype_of(&other)));
        let order = PRIMITIVES.map(|other| one.cmp(&other) as i8);
        say!(
            out,
            "{one} {one:?} {one:>9} {answers:?} {below:?} {order:?} {}",
            hash(&one)
        );
        let ty: Ty<u8> = one.into();
        say!(out, "{ty:?} {ty:#?} {}", hash(&ty));
    }
}

fn configurations(out: &mut String) {
    let all = named_configurations();
    say!(out, "{all:?} {:#?}", all[1]);
    say!(
        out,
        "{WORKER_STACK_SIZE} {STACK_RED_ZONE} {STACK_GROW_SIZE}"
    );
    // What `f` gives and borrows needn't be able to move between threads.
    let word = std::rc::Rc::new("from inside");
    say!(out, "{}", with_stack(|| word.clone()));
}

/// The arms of the macro for types without children.
fn leaves(arena: &mut TypeArena) -> [TyRef; 13] {
    [
        arc_ty!(arena, Null),
        arc_ty!(arena, Bool),
        arc_ty!(arena, Int),
        arc_ty!(arena, Float),
        arc_ty!(arena, String),
        arc_ty!(arena, Path),
        arc_ty!(arena, Uri),
        arc_ty!(arena, Number),
        arc_ty!(arena, Bottom),
        arc_ty!(arena, Top),
        arc_ty!(arena, # 4),
        arc_ty!(arena, TyVar(2 + 3)),
        arc_ty!(arena, (Int)),
    ]
}

/// Each other arm that compiles with the unchanged Rust.
fn branches(arena: &mut TypeArena) -> [TyRef; 12] {
    [
        arc_ty!(arena, [Int]),
        arc_ty!(arena, [[# 1]]),
        arc_ty!(arena, Int -> String -> Bool),
        arc_ty!(arena, (Int -> String) -> [Bool]),
        arc_ty!(arena, {}),
        arc_ty!(arena, { "b": Int, "a": ((# 0) -> Int), }),
        arc_ty!(arena, { "c": { "d": [Path] } }),
        arc_ty!(arena, { ; ... }),
        arc_ty!(arena, { "c": Int, "e": Null; ... }),
        arc_ty!(arena, named!("Alias", { "x": Int })),
        arc_ty!(arena, neg!(Null)),
        arc_ty!(arena, neg!(Int -> Int)),
    ]
}

fn by_macro(out: &mut String) {
    let mut arena = TypeArena::new();
    let mut given = Vec::from(leaves(&mut arena));
    given.extend(branches(&mut arena));
    // The arena itself will do in place of a reference.
    given.push(arc_ty!(
        arena,
        named!(format!("Other{}", 1), (neg!([TyVar(9)])))
    ));
    say!(out, "{given:?}");
    for ty in given {
        let cut = arena.display_truncated(ty, &DisplayConfig::inlay());
        say!(out, "{} {cut}", arena.display(ty));
    }
    whole(out, &arena);
}

/// Sets over children that aren't numbers of nodes.
fn sets(out: &mut String) {
    let name = SmolStr::new;
    let mut one = AttrSetTy::<u8>::new();
    say!(out, "{one:?} {:#?} {}", one, one == AttrSetTy::default());
    one.fields
        .extend([(name("a"), 1), (name("b"), 2), (name("c"), 3)]);
    one.optional_fields = BTreeSet::from([name("a"), name("b"), name("gone")]);
    let mut other = AttrSetTy::from_fields(BTreeMap::from([(name("b"), 5), (name("d"), 6)]));
    other.optional_fields.extend([name("d"), name("away")]);
    other.open = true;
    other.dyn_ty = Some(9);
    let keys: Vec<_> = one.keys().collect();
    say!(
        out,
        "{keys:?} {:?} {:?}",
        one.get(&name("c")),
        one.get(&name("d"))
    );
    for (one, other) in [(&one, &other), (&other, &one), (&one, &one)] {
        let merged = one.clone().merge(other.clone());
        say!(out, "{merged:?} {merged:#?} {}", hash(&merged));
    }
    let inner = AttrSetTy::from_internal(
        [
            ("z", numbered(3)),
            ("y", numbered(70_000)),
            ("z", numbered(4)),
        ],
        true,
    );
    let closed = AttrSetTy::from_internal([], false);
    say!(
        out,
        "{inner:?} {:?} {:?}",
        inner.cmp(&closed),
        closed.partial_cmp(&inner)
    );
}

fn inference(out: &mut String) {
    let mut arena = TypeArena::default();
    let root = arc_ty!(arena, [# 3]);
    let owned = OwnedTy::new(Arc::new(arena), root);
    let name = SmolStr::new("Alias");
    let set = AttrSetTy::from_fields(BTreeMap::from([(name.clone(), "field".to_string())]));
    let (a, b) = ("one".to_string(), "other".to_string());
    let all: [Ty<String, (u8, u8)>; 10] = [
        Ty::TyVar((1, 2)),
        Ty::Primitive(PrimitiveTy::Uri),
        Ty::List(a.clone()),
        Ty::Lambda {
            param: a.clone(),
            body: b.clone(),
        },
        Ty::AttrSet(set),
        Ty::Neg(a.clone()),
        Ty::Inter(a.clone(), b.clone()),
        Ty::Union(b, a.clone()),
        Ty::Named(name, a),
        Ty::Frozen(owned),
    ];
    for one in &all {
        let equal: Vec<_> = all.iter().map(|other| u8::from(one == other)).collect();
        say!(
            out,
            "{one:?} {one:#?} {equal:?} {}",
            hash(one) == hash(&one.clone())
        );
    }
    let kept: HashSet<_> = all.into_iter().collect();
    say!(out, "{} different", kept.len());
}

pub fn report(out: &mut String) {
    traits();
    primitives(out);
    configurations(out);
    by_macro(out);
    sets(out);
    inference(out);
    let renamed: Substitutions = HashMap::from_iter([(3, 0)]);
    say!(out, "{renamed:?}");
}
