//! Chains of each kind as long as an arena, on an ordinary thread; and arenas that threads share.

use std::collections::BTreeMap;
use std::fmt::Write;
use std::sync::Arc;
use std::thread;

use lang_ty::simplify::simplify;
use lang_ty::stack::with_stack;
use lang_ty::{
    import_from_arena, AttrSetTy, DisplayConfig, OutputTy, OwnedTy, PrimitiveTy, TyRef, TypeArena,
};
use rustc_hash::FxHashMap;
use smol_str::SmolStr;

use crate::random::Random;
use crate::report::{questions, say, texts};
use crate::types::{self, list, number, Kind};

const STEPS: [&str; 9] = [
    "list",
    "param",
    "body",
    "field",
    "dynamic",
    "union",
    "intersection",
    "named",
    "negation",
];

fn step(kind: &str, below: TyRef, other: TyRef, at: usize) -> OutputTy {
    let set = |dynamic: Option<TyRef>| AttrSetTy {
        fields: BTreeMap::from([(SmolStr::new("x"), dynamic.map_or(below, |_| other))]),
        dyn_ty: dynamic,
        ..AttrSetTy::new()
    };
    match kind {
        "list" => OutputTy::List(below),
        "param" => OutputTy::Lambda {
            param: below,
            body: other,
        },
        "body" => OutputTy::Lambda {
            param: other,
            body: below,
        },
        "field" => OutputTy::AttrSet(set(None)),
        "dynamic" => OutputTy::AttrSet(set(Some(below))),
        // Unions and intersections in turn, since a list of its own kind would be spliced.
        "union" => list(at % 2 == 0, vec![below, other]),
        "intersection" => list(at % 2 == 1, vec![other, below]),
        "named" => OutputTy::Named(SmolStr::new("alias"), below),
        _ => OutputTy::Neg(below),
    }
}

/// So many nodes, of which two are leaves.
fn chain(kind: &str, count: usize, leaf: OutputTy) -> (TypeArena, TyRef) {
    let mut arena = TypeArena::default();
    let mut root = arena.intern(leaf);
    let other = arena.intern(OutputTy::Primitive(PrimitiveTy::Int));
    for at in 2..count {
        root = arena.intern(step(kind, root, other, at));
    }
    (arena, root)
}

/// The calls that see to their own stack, as the Rust's do.
fn guarded(out: &mut String, arena: &mut TypeArena, root: TyRef) {
    say!(out, "shown {}", arena.display(root));
    let config = DisplayConfig {
        max_chars: 9_000,
        ..DisplayConfig::full()
    };
    say!(out, "cut {}", arena.display_truncated(root, &config));
    say!(out, "free {:?}", arena.free_type_vars(root));
    let results = [
        simplify(arena, root),
        arena.normalize_vars(root),
        arena.normalize_replacing_unknown(root),
    ];
    say!(
        out,
        "{results:?} of {}: {}",
        arena.len(),
        arena.display(results[0])
    );
}

/// Those that the caller must see to.
fn unguarded(out: &mut String, arena: &mut TypeArena, root: TyRef) {
    questions(out, arena, root);
    let (small, small_root) = arena.compact(root);
    let mut target = TypeArena::new();
    let imported = import_from_arena(&mut target, arena, root, &mut FxHashMap::default());
    say!(
        out,
        "compact {} of {}, imported {}",
        number(small_root),
        small.len(),
        number(imported)
    );
    let (small, target) = (Arc::new(small), Arc::new(target));
    let (one, other) = (
        OwnedTy::new(small, small_root),
        OwnedTy::new(target, imported),
    );
    say!(out, "alike {}", one.structurally_eq(&other));
}

fn chains(kind: Kind) -> String {
    let mut out = String::new();
    let more = usize::from(kind == Kind::Wild);
    // Of the full length, where no call adds a node; then a third of it, since two calls make all nodes anew.
    let sizes = [(4_096 + more, 0), (1_300 + 1_700 * more, 7)];
    for name in STEPS {
        for (count, variable) in sizes {
            let (mut arena, root) = chain(name, count, OutputTy::TyVar(variable));
            say!(out, "chain {name} {} of {}", number(root), arena.len());
            guarded(&mut out, &mut arena, root);
            with_stack(|| unguarded(&mut out, &mut arena, root));
            if variable != 0 {
                let sorted = with_stack(|| arena.normalize_set_ops(root));
                say!(out, "sorted {} of {}", number(sorted), arena.len());
            }
        }
    }
    out
}

fn ask(case: u64, roots: &[TyRef], arena: &Arc<TypeArena>) -> String {
    let mut out = String::new();
    for &root in roots {
        questions(&mut out, arena, root);
        texts(&mut out, &mut Random::new(99, 3, case), arena, root);
        let (small, small_root) = arena.compact(root);
        let small = OwnedTy::new(Arc::new(small), small_root);
        say!(
            out,
            "{small} {}",
            small.structurally_eq(&OwnedTy::new(arena.clone(), root))
        );
    }
    out
}

/// Four threads ask the same of one arena.
fn shared(out: &mut String, kind: Kind) {
    for case in 0..20 {
        let mut random = Random::new(99, 2, case);
        let (made, _) = types::pair(&mut random, kind);
        let roots: Vec<_> = (0..4).map(|_| made.light(&mut random)).collect();
        let arena = Arc::new(made.arena);
        let start = |_| {
            let (roots, arena) = (roots.clone(), arena.clone());
            thread::spawn(move || ask(case, &roots, &arena))
        };
        let started: Vec<_> = (0..4).map(start).collect();
        for thread in started {
            out.push_str(&thread.join().expect("an answer of each thread"));
        }
    }
}

pub fn report(out: &mut String, kind: Kind) {
    let deep = thread::spawn(move || chains(kind));
    out.push_str(&deep.join().expect("the chains"));
    shared(out, kind);
}
