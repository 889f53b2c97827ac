//! Seeded random types.

use coombtray::{AttrSetTy, Field, OutputTy, PrimitiveTy, TyRef};

use crate::both::Both;

/// A xorshift generator; a seed always gives the same numbers.
pub struct Random(u64);

impl Random {
    pub fn new(seed: u64) -> Random {
        let mut random = Random(seed.wrapping_add(1).wrapping_mul(0x9e37_79b9_7f4a_7c15));
        for _ in 0..8 {
            random.next();
        }
        random
    }

    pub fn next(&mut self) -> u64 {
        self.0 ^= self.0 << 13;
        self.0 ^= self.0 >> 7;
        self.0 ^= self.0 << 17;
        self.0
    }

    pub fn below(&mut self, bound: usize) -> usize {
        (self.next() >> 11) as usize % bound
    }

    pub fn half(&mut self) -> bool {
        self.below(2) == 0
    }
}

pub const NAMES: [&str; 5] = ["Fix", "chainage", "pitch", "roll", "roll angle"];

/// Fewer nodes than half a list's members, so that no call can be refused by 8.
const MOST_NODES: usize = 30;

/// Past this many places the Rust, which walks each, takes long.
const MOST_PLACES: u64 = 20_000;

/// A child, mostly a recent node, so that types grow deep.
fn child(random: &mut Random, nodes: usize) -> TyRef {
    let back = if random.half() { nodes.min(3) } else { nodes };
    TyRef::from_raw((nodes - 1 - random.below(back)) as u32)
}

fn set(random: &mut Random, nodes: usize) -> AttrSetTy {
    let mut attrs = AttrSetTy::new();
    for name in NAMES {
        if random.below(5) < 2 {
            let field = Field {
                ty: child(random, nodes),
                optional: random.half(),
            };
            attrs.fields.insert(name.to_string(), field);
        }
    }
    attrs.dyn_ty = (random.below(4) == 0).then(|| child(random, nodes));
    attrs.open = random.half();
    attrs
}

/// A node over so many others. Lists are the most frequent, since the calls have most to do with them.
fn node(random: &mut Random, nodes: usize) -> OutputTy {
    if nodes == 0 || random.below(4) == 0 {
        return match random.below(6) {
            0 => OutputTy::Bottom,
            1 => OutputTy::Top,
            2 => OutputTy::Primitive(PrimitiveTy::ALL[random.below(8)]),
            3 => OutputTy::TyVar(random.next() as u32 >> random.below(32)),
            _ => OutputTy::TyVar(random.below(4) as u32),
        };
    }
    match random.below(12) {
        0 => OutputTy::List(child(random, nodes)),
        1 => OutputTy::Neg(child(random, nodes)),
        2 => OutputTy::Named(NAMES[random.below(5)].into(), child(random, nodes)),
        3 => OutputTy::AttrSet(set(random, nodes)),
        4 | 5 => {
            // The first nodes are mostly leaves, and are met as params again and again.
            let early = TyRef::from_raw(random.below(nodes.min(3)) as u32);
            let (late, body) = (child(random, nodes), child(random, nodes));
            let param = if random.half() { early } else { late };
            OutputTy::Lambda { param, body }
        }
        kind => {
            let most = if random.below(20) == 0 { 64 } else { 4 };
            let members = (0..=random.below(most))
                .map(|_| child(random, nodes))
                .collect();
            match kind % 2 {
                0 => OutputTy::Union(members),
                _ => OutputTy::Intersection(members),
            }
        }
    }
}

fn children(node: &OutputTy) -> Vec<TyRef> {
    match node {
        OutputTy::List(inner) | OutputTy::Neg(inner) | OutputTy::Named(_, inner) => vec![*inner],
        OutputTy::Lambda { param, body } => vec![*param, *body],
        OutputTy::Union(members) | OutputTy::Intersection(members) => members.clone(),
        OutputTy::AttrSet(attrs) => {
            let fields = attrs.fields.values().map(|field| field.ty);
            fields.chain(attrs.dyn_ty).collect()
        }
        _ => vec![],
    }
}

/// So many random nodes, no two alike, each over those before it.
pub fn distinct(seed: u64, count: usize) -> Vec<OutputTy> {
    let mut random = Random::new(seed);
    let mut made = Vec::new();
    while made.len() < count {
        let node = node(&mut random, made.len());
        if !made.contains(&node) {
            made.push(node);
        }
    }
    made
}

/// A random arena in both, and the newest type there that the Rust can walk.
pub fn type_of(seed: u64) -> (Both, TyRef) {
    let mut random = Random::new(seed);
    let mut both = Both::new(&NAMES);
    let (mut root, mut places) = (TyRef::from_raw(0), Vec::new());
    for _ in 0..=random.below(MOST_NODES) {
        let node = node(&mut random, both.ours.len());
        let below = children(&node).into_iter();
        let below = below.map(|ty| places[ty.into_raw() as usize]);
        let here = below.fold(1u64, u64::saturating_add);
        let ty = both.intern(node);
        if ty.into_raw() as usize == places.len() {
            places.push(here);
        }
        if here <= MOST_PLACES {
            root = ty;
        }
    }
    (both, root)
}
