//! Everything that can be asked of a random type, written down.

use std::fmt::Write;
use std::hash::{DefaultHasher, Hash, Hasher};
use std::sync::Arc;

use lang_ty::arc_ty::DisplayConfig;
use lang_ty::simplify::simplify;
use lang_ty::{
    import_from_arena, import_node_from_arena, AttrSetTy, OutputTy, OwnedTy, TyRef, TypeArena,
};
use rustc_hash::FxHashMap;

use crate::random::Random;
use crate::types::{self, number, numbered, Kind, Made};
use crate::values;

/// Writes a line; a string takes all that it is given.
macro_rules! say {
    ($out:expr, $($words:tt)*) => {
        writeln!($out, $($words)*).expect("a string grows")
    };
}
pub(crate) use say;

pub fn numbers(given: &[TyRef]) -> String {
    let words: Vec<_> = given.iter().map(|ty| number(*ty).to_string()).collect();
    words.join(" ")
}

pub fn hash(value: &impl Hash) -> u64 {
    let mut hasher = DefaultHasher::new();
    value.hash(&mut hasher);
    hasher.finish()
}

/// The whole arena, node for node.
pub fn whole(out: &mut String, arena: &TypeArena) {
    say!(out, "{arena:?}, empty: {}", arena.is_empty());
    for at in 0..arena.len() as u32 {
        say!(out, "  {at}: {:?}", arena[numbered(at)]);
    }
}

/// Every question, and the variables.
pub fn questions(out: &mut String, arena: &TypeArena, ty: TyRef) {
    let answers = [
        arena.has_type_vars(ty),
        arena.needs_var_normalization(ty),
        arena.contains_bare_tyvar(ty),
        arena.has_shared_tyvar_across_lambda_params(ty),
        arena.has_non_primitive_lambda_param(ty),
        arena.contains_union_or_intersection(ty),
        arena.contains_intersection(ty),
        arena.contains_neg(ty),
        arena.contains_top_or_bottom(ty),
        arena.contains_named(ty),
    ]
    .map(u8::from);
    let free = arena.free_type_vars(ty);
    let unwrapped = number(arena.unwrap_named(ty));
    say!(
        out,
        "{} answers {answers:?}, free {free:?}, unwrapped {unwrapped}",
        number(ty)
    );
    if let OutputTy::AttrSet(set) = arena.get(ty) {
        say!(
            out,
            "free in the set {:?}",
            arena.free_type_vars_attrset(set)
        );
    }
}

/// The configurations that have a name.
pub fn named_configurations() -> [DisplayConfig; 6] {
    [
        DisplayConfig::full(),
        DisplayConfig::cli(),
        DisplayConfig::hover(),
        DisplayConfig::inlay(),
        DisplayConfig::completion(),
        DisplayConfig::diagnostic(),
    ]
}

/// These, and some that have none.
fn configurations(random: &mut Random) -> Vec<DisplayConfig> {
    let mut all = named_configurations().to_vec();
    for _ in 0..4 {
        all.push(DisplayConfig {
            max_fields: random.below(4),
            max_members: random.below(4),
            max_depth: random.below(5),
            max_chars: random.below(2) * random.below(90),
        });
    }
    all
}

pub fn texts(out: &mut String, random: &mut Random, arena: &TypeArena, ty: TyRef) {
    say!(out, "{} shown {}", number(ty), arena.display(ty));
    for config in configurations(random) {
        say!(out, "cut {}", arena.display_truncated(ty, &config));
    }
    if random.percent(10) {
        // Width and flags reach no part of the text.
        say!(
            out,
            "padded {:>30} {:#} {:#?}",
            arena.display(ty),
            arena.display(ty),
            arena[ty]
        );
    }
}

fn reading(out: &mut String, random: &mut Random, made: &Made) {
    say!(out, "given {}", numbers(&made.given));
    for _ in 0..3 {
        let ty = made.light(random);
        questions(out, &made.arena, ty);
        texts(out, random, &made.arena, ty);
    }
    // The questions walk each node once, so heavy types may be asked too.
    let any = numbered(random.below(made.arena.len()) as u32);
    questions(out, &made.arena, any);
}

type Rewriting = fn(&mut TypeArena, TyRef) -> TyRef;

const REWRITINGS: [(&str, Rewriting); 4] = [
    ("simplified", simplify),
    ("variables renamed", TypeArena::normalize_vars),
    ("unknown replaced", TypeArena::normalize_replacing_unknown),
    ("lists sorted", TypeArena::normalize_set_ops),
];

/// One call that may add nodes, on a random type; gives back the result.
fn rewritten(out: &mut String, random: &mut Random, made: &mut Made) -> TyRef {
    let (name, call) = random.pick(&REWRITINGS);
    let ty = made.light(random);
    if name == "simplified" && made.hollow(ty) {
        return ty;
    }
    let result = call(&mut made.arena, ty);
    made.learn();
    let (from, to, count) = (number(ty), number(result), made.arena.len());
    say!(
        out,
        "{name} {from} to {to} of {count}: {}",
        made.arena.display(result)
    );
    result
}

/// Calls that add nodes, and new nodes over what they gave.
fn rewriting(out: &mut String, random: &mut Random, made: &mut Made, kind: Kind) {
    for _ in 0..random.within(2..=5) {
        let result = rewritten(out, random, made);
        questions(out, &made.arena, result);
        if random.percent(30) {
            let node = types::node(random, made, kind);
            say!(out, "added {node:?} as {}", number(made.add(node.clone())));
        }
    }
}

/// A type with its arena, and its copy, which is given back.
fn owned(out: &mut String, random: &mut Random, arena: &Arc<TypeArena>, ty: TyRef) -> OwnedTy {
    let owned = OwnedTy::new(arena.clone(), ty);
    let configurations = configurations(random);
    let cut = owned.display_truncated(&random.pick(&configurations));
    say!(out, "{owned:?} {owned} {:?} {cut}", owned.get());
    let small = owned.compact();
    whole(out, &small.arena);
    let (count, root) = (small.arena.len(), number(small.root));
    let same = small.structurally_eq(&owned);
    say!(out, "compact {root} of {count}, alike {same}");
    identities(out, &owned, &small);
    small
}

/// Equality, hash and order rest on where the arena lies.
fn identities(out: &mut String, owned: &OwnedTy, small: &OwnedTy) {
    let twin = owned.clone();
    let equal = [twin == *owned, small == owned];
    let hashes = [&twin, small].map(|one| hash(one) == hash(owned));
    say!(out, "equal {equal:?}, hashes {hashes:?}");
    let by_address = Arc::as_ptr(&small.arena).cmp(&Arc::as_ptr(&owned.arena));
    let same = owned.partial_cmp(&twin);
    say!(out, "order {} {same:?}", small.cmp(owned) == by_address);
}

/// Types of one arena go to the other; the cache is the caller's.
fn imports(
    out: &mut String,
    random: &mut Random,
    first: &Made,
    second: &mut Made,
    kind: Kind,
) -> Vec<TyRef> {
    let mut cache = FxHashMap::default();
    if random.percent(20) {
        // What stands there already is taken as it is.
        cache.insert(first.child(random), second.child(random));
    }
    let mut arrived = Vec::new();
    for _ in 0..2 {
        let ty = first.light(random);
        arrived.push(import_from_arena(
            &mut second.arena,
            &first.arena,
            ty,
            &mut cache,
        ));
        let node = types::node(random, first, kind);
        arrived.push(import_node_from_arena(
            &mut second.arena,
            &first.arena,
            node,
            &mut cache,
        ));
        second.learn();
        say!(out, "imported {arrived:?} of {}", second.arena.len());
    }
    let mut kept: Vec<_> = cache
        .iter()
        .map(|(from, to)| (number(*from), number(*to)))
        .collect();
    kept.sort_unstable();
    say!(out, "cache {kept:?}");
    arrived
}

/// Types of one arena beside those of the other.
fn between(out: &mut String, random: &mut Random, first: &Made, second: &mut Made, kind: Kind) {
    let mut there = imports(out, random, first, second, kind);
    there.extend([second.light(random), second.child(random)]);
    let arenas = [&first.arena, &second.arena].map(|arena| Arc::new(arena.clone()));
    let ty = first.light(random);
    let small = owned(out, random, &arenas[0], ty);
    let back = import_from_arena(
        &mut second.arena,
        &first.arena,
        ty,
        &mut FxHashMap::default(),
    );
    second.learn();
    let again = OwnedTy::new(Arc::new(second.arena.clone()), back);
    say!(
        out,
        "{again:?} again, alike {}",
        again.structurally_eq(&small)
    );
    for other in there
        .into_iter()
        .map(|ty| OwnedTy::new(arenas[1].clone(), ty))
    {
        let one = OwnedTy::new(arenas[0].clone(), first.child(random));
        let alike = [&small, &one].map(|one| one.structurally_eq(&other));
        say!(
            out,
            "{other:?} and {small:?}, {one:?}: alike {alike:?} {}",
            other.structurally_eq(&one)
        );
    }
}

/// Types of another arena beside their copies: the walk goes from arena to arena.
fn beyond(out: &mut String, made: &Made) {
    let arena = Arc::new(made.arena.clone());
    for at in (0..arena.len() as u32).map(numbered) {
        let OutputTy::Extern(inner) = &arena[at] else {
            continue;
        };
        let mut copy = TypeArena::new();
        let root = import_from_arena(
            &mut copy,
            &inner.arena,
            inner.root,
            &mut FxHashMap::default(),
        );
        let (copy, here) = (
            OwnedTy::new(Arc::new(copy), root),
            OwnedTy::new(arena.clone(), at),
        );
        let alike = [
            copy.structurally_eq(&here),
            here.structurally_eq(inner),
            here == *inner,
        ];
        say!(out, "{here:?} of {inner:?}, {copy}: alike {alike:?}");
    }
}

fn sets(made: &Made) -> Vec<&AttrSetTy<TyRef>> {
    let nodes = (0..made.arena.len() as u32).map(|at| made.arena.get(numbered(at)));
    let sets = nodes.filter_map(|node| match node {
        OutputTy::AttrSet(set) => Some(set),
        _ => None,
    });
    sets.collect()
}

/// Everything of one random type.
pub fn report(out: &mut String, random: &mut Random, kind: Kind) {
    let (mut first, mut second) = types::pair(random, kind);
    reading(out, random, &first);
    reading(out, random, &second);
    between(out, random, &first, &mut second, kind);
    beyond(out, &second);
    let mut clone = first.arena.clone();
    rewriting(out, random, &mut first, kind);
    rewriting(out, random, &mut second, kind);
    values::nodes(out, random, &first);
    values::sets(out, random, &sets(&first), &sets(&second));
    if let Some(outer) = &first.outer {
        whole(out, &outer.arena);
    }
    let set = types::set(random, &first, kind);
    say!(
        out,
        "free in {set:?}: {:?}",
        first.arena.free_type_vars_attrset(&set)
    );
    // The clone knows nothing of what came after.
    clone.normalize_vars(numbered(0));
    whole(out, &clone);
    whole(out, &first.arena);
    whole(out, &second.arena);
}
