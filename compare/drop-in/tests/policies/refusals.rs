//! A thousand refusals and more, each a panic that says number, who caused it and which node, and after which the arena is as it was
//! and goes on.

use std::collections::{BTreeMap, BTreeSet};
use std::panic::{catch_unwind, set_hook, AssertUnwindSafe};
use std::sync::Arc;

use lang_ty::simplify::simplify;
use lang_ty::{AttrSetTy, OutputTy, OwnedTy, TyRef, TypeArena};
use smol_str::SmolStr;

use crate::random::Random;
use crate::types::{self, list, numbered, Kind, Made};

/// What is asked of an arena and can't be given.
enum Work {
    Store(OutputTy),
    Simplify(TyRef),
    Rename(TyRef),
    Sort(TyRef),
    Show(TyRef),
}

impl Work {
    fn run(&self, arena: &mut TypeArena) {
        match self {
            Work::Store(node) => _ = arena.intern(node.clone()),
            Work::Simplify(ty) => _ = simplify(arena, *ty),
            Work::Rename(ty) => _ = arena.normalize_vars(*ty),
            Work::Sort(ty) => _ = arena.normalize_set_ops(*ty),
            Work::Show(ty) => _ = arena.display(*ty).to_string(),
        }
    }

    /// The node that the message names.
    fn node<'a>(&'a self, arena: &'a TypeArena) -> &'a OutputTy {
        match self {
            Work::Store(node) => node,
            Work::Simplify(ty) | Work::Rename(ty) | Work::Sort(ty) | Work::Show(ty) => &arena[*ty],
        }
    }
}

const AUTHOR: &str = "the author of the node";
const HOST: &str = "the host that lends memory";
const SIZE: &str = "the size of the work";

/// Something refused: what is asked, the number, and who caused it.
type Refused = (Work, u32, &'static str);

fn set(names: impl IntoIterator<Item = String>) -> AttrSetTy<TyRef> {
    let names = names.into_iter().map(SmolStr::new);
    AttrSetTy::from_fields(names.map(|name| (name, numbered(0))).collect())
}

fn odd_name(random: &mut Random) -> String {
    let odd = [
        "".into(),
        "n".repeat(65 + random.below(200)),
        "höhe".into(),
        "\n".into(),
        "a\u{7f}".into(),
    ];
    random.pick(&odd)
}

/// A node that no arena of the library has a word for.
fn node(random: &mut Random, made: &Made, which: usize) -> Refused {
    let child = made.child(random);
    let many = random.within(65..=90);
    let (node, number, who) = match which {
        0 => (
            OutputTy::Extern(OwnedTy::new(Arc::new(made.arena.clone()), child)),
            3,
            AUTHOR,
        ),
        1 => (list(random.percent(50), vec![]), 3, AUTHOR),
        2 => (list(random.percent(50), vec![child; many]), 3, AUTHOR),
        3 => (
            OutputTy::AttrSet(set((0..many).map(|at| format!("f{at}")))),
            3,
            AUTHOR,
        ),
        4 => {
            let mut set = types::set(random, made, Kind::Tame);
            set.optional_fields.insert(SmolStr::new("no such field"));
            (OutputTy::AttrSet(set), 3, AUTHOR)
        }
        5 => (
            OutputTy::Named(SmolStr::new(odd_name(random)), child),
            1,
            HOST,
        ),
        _ => (
            OutputTy::AttrSet(set(["a".into(), odd_name(random)])),
            1,
            HOST,
        ),
    };
    (Work::Store(node), number, who)
}

/// 4,096 nodes: variables that nothing else has, and a list over the last.
fn all_nodes(made: &mut Made) -> TyRef {
    for at in made.arena.len() as u32..4_095 {
        made.add(OutputTy::TyVar(1_000_000 + at));
    }
    made.add(OutputTy::List(numbered(4_094)))
}

/// As many lists of 64 as there are words for; gives the next one.
fn all_words(made: &mut Made) -> OutputTy {
    let all: Vec<_> = (0..320)
        .map(|at| made.add(OutputTy::TyVar(2_000_000 + at)))
        .collect();
    for members in all.windows(64) {
        let next = OutputTy::Union(members.to_vec());
        if catch_unwind(AssertUnwindSafe(|| made.add(next.clone()))).is_err() {
            return next;
        }
    }
    panic!("16,384 words hold no 257 lists");
}

/// 4,095 names, and a set with two more.
fn all_names(made: &mut Made) -> OutputTy {
    let count = |made: &Made| {
        let nodes = nodes(&made.arena);
        let names = nodes.iter().flat_map(|node| match node {
            OutputTy::AttrSet(set) => set.keys().cloned().collect(),
            OutputTy::Named(name, _) => vec![name.clone()],
            _ => vec![],
        });
        names.collect::<BTreeSet<_>>().len()
    };
    let more: Vec<_> = (0..4_095 - count(made))
        .map(|at| format!("name {at}"))
        .collect();
    for part in more.chunks(64) {
        made.add(OutputTy::AttrSet(set(part.iter().cloned())));
    }
    assert_eq!(count(made), 4_095);
    OutputTy::AttrSet(set([" before all".into(), "~ behind them".into()]))
}

fn long_text(made: &mut Made) -> TyRef {
    let name = SmolStr::new("n".repeat(64));
    let mut ty = made.add(OutputTy::Named(name, numbered(0)));
    for _ in 0..2 {
        ty = made.add(OutputTy::Intersection(vec![ty; 64]));
    }
    ty
}

/// Two lists of 33 in one, where each variable has both signs.
fn spliced(made: &mut Made) -> TyRef {
    let all: Vec<_> = (0..66).map(|at| made.add(OutputTy::TyVar(at))).collect();
    let halves = [&all[..33], &all[33..]].map(|half| made.add(OutputTy::Union(half.to_vec())));
    let both = made.add(OutputTy::Union(halves.to_vec()));
    made.add(OutputTy::Lambda {
        param: both,
        body: both,
    })
}

/// An arena that has reached a limit, and what would pass it.
fn full(made: &mut Made, which: usize) -> Refused {
    match which {
        0 => (Work::Store(OutputTy::List(all_nodes(made))), 7, SIZE),
        1 => (Work::Rename(all_nodes(made)), 7, SIZE),
        2 => (Work::Store(all_words(made)), 7, SIZE),
        3 => (Work::Store(all_names(made)), 1, HOST),
        4 => (Work::Show(long_text(made)), 9, SIZE),
        5 => (Work::Simplify(spliced(made)), 8, SIZE),
        _ => (Work::Sort(spliced(made)), 8, SIZE),
    }
}

fn nodes(arena: &TypeArena) -> Vec<OutputTy> {
    (0..arena.len() as u32)
        .map(|at| arena[numbered(at)].clone())
        .collect()
}

/// What an arena gives when it is used on, as far as it has room: nodes that it has are found, and one name has a place.
fn used(arena: &mut TypeArena, light: TyRef) -> (Vec<OutputTy>, String) {
    assert_eq!(arena.intern(arena[light].clone()), light);
    let mut ty = light;
    for node in [
        OutputTy::Neg(light),
        OutputTy::Named(SmolStr::new("one name"), light),
    ] {
        let stored = catch_unwind(AssertUnwindSafe(|| arena.intern(node)));
        ty = stored.unwrap_or(ty);
    }
    let root = catch_unwind(AssertUnwindSafe(|| simplify(arena, ty)));
    let text = arena.display(root.unwrap_or(light)).to_string();
    (nodes(arena), text)
}

/// Tries it: the panic's message must be right, and the arena like one of which it was never asked.
fn refused(made: &mut Made, light: TyRef, (work, number, who): Refused) {
    let mut untouched = made.arena.clone();
    let panic =
        catch_unwind(AssertUnwindSafe(|| work.run(&mut made.arena))).expect_err("a refusal");
    let message = panic.downcast_ref::<String>().expect("a message");
    let node = format!("{:?}", work.node(&untouched));
    for part in [&format!("refused {number}, caused by {who}"), &node] {
        assert!(message.contains(part), "no '{part}' in: {message}");
    }
    assert_eq!(nodes(&made.arena), nodes(&untouched));
    assert_eq!(used(&mut made.arena, light), used(&mut untouched, light));
}

#[test]
fn a_thousand_refusals() {
    set_hook(Box::new(|_| {}));
    let mut counts = BTreeMap::new();
    for case in 0..1_120 {
        let mut random = Random::new(5, 4, case);
        let (mut made, _) = types::pair(&mut random, Kind::Tame);
        let light = made.light(&mut random);
        // Large arenas take longer, so they are met less often.
        let which = case as usize % 7;
        let (kind, refusal) = match case % 16 {
            0 => (7 + which, full(&mut made, which)),
            _ => (which, node(&mut random, &made, which)),
        };
        refused(&mut made, light, refusal);
        *counts.entry(kind).or_insert(0) += 1;
    }
    assert_eq!(counts.len(), 14, "{counts:?}");
    assert!(counts.values().all(|count| *count >= 10), "{counts:?}");
}
