//! Random types, made node by node.

use std::sync::Arc;

use lang_ty::{AttrSetTy, OutputTy, OwnedTy, TyRef, TypeArena};
use smol_str::SmolStr;

use crate::primitives::PRIMITIVES;
use crate::random::Random;

const NAMES: [&str; 16] = [
    "a",
    "b",
    "aa",
    "a b",
    "Fix",
    "chainage",
    "pitch",
    "roll",
    "roll angle",
    "roll-angle",
    " ",
    "~",
    "~~~",
    "_",
    "...",
    "a name of sixty-four bytes, which is the most that a table holds",
];

/// Names that no table of document 01 holds: none, too long, or with bytes outside 32 to 126.
const ODD_NAMES: [&str; 6] = [
    "",
    "a name of sixty-five bytes, that is one more than a table can hold",
    "höhe",
    "line\nbreak",
    "\u{7f}",
    "\u{1f682}\u{1f682}\u{1f682}\u{1f682}\u{1f682}\u{1f682}\u{1f682}\u{1f682}",
];

/// Half a list's members, so that no list of a tame type can grow to a 65th different one.
const MOST_NODES: usize = 30;

/// The heaviest type that is printed or simplified, unless it is made to be long: the Rust walks each place.
const MOST_WEIGHT: usize = 20_000;

/// Tame types keep within document 01's limits; wild ones needn't.
#[derive(Clone, Copy, PartialEq, Eq)]
pub enum Kind {
    Tame,
    Wild,
}

pub fn number(ty: TyRef) -> u32 {
    ty.into_raw().into()
}

pub fn numbered(number: u32) -> TyRef {
    TyRef::from_raw(number.into())
}

pub fn children(node: &OutputTy) -> Vec<TyRef> {
    match node {
        OutputTy::List(inner) | OutputTy::Neg(inner) | OutputTy::Named(_, inner) => vec![*inner],
        OutputTy::Lambda { param, body } => vec![*param, *body],
        OutputTy::Union(members) | OutputTy::Intersection(members) => members.clone(),
        OutputTy::AttrSet(set) => set.fields.values().copied().chain(set.dyn_ty).collect(),
        _ => Vec::new(),
    }
}

/// What must be known of a node before it may be printed or simplified.
#[derive(Clone, Copy)]
pub struct Facts {
    /// At least the bytes of its text and the number of its places.
    weight: usize,
    /// A list without members is among its nodes: the Rust's `simplify` panics there.
    hollow: bool,
}

/// An arena that the `Extern` nodes of another point into.
pub struct Outer {
    pub arena: Arc<TypeArena>,
    facts: Vec<Facts>,
}

/// An arena while it grows.
pub struct Made {
    pub arena: TypeArena,
    pub outer: Option<Arc<Outer>>,
    /// What each call of `intern` gave.
    pub given: Vec<TyRef>,
    facts: Vec<Facts>,
    most_weight: usize,
}

impl Made {
    pub fn new(outer: Option<Arc<Outer>>) -> Made {
        Made {
            arena: TypeArena::new(),
            outer,
            given: Vec::new(),
            facts: Vec::new(),
            most_weight: MOST_WEIGHT,
        }
    }

    pub fn add(&mut self, node: OutputTy) -> TyRef {
        let ty = self.arena.intern(node);
        self.given.push(ty);
        self.learn();
        ty
    }

    /// Looks at the nodes that came since.
    pub fn learn(&mut self) {
        for at in self.facts.len()..self.arena.len() {
            let facts = self.facts_of(&self.arena[numbered(at as u32)]);
            self.facts.push(facts);
        }
    }

    fn facts_of(&self, node: &OutputTy) -> Facts {
        let own = match node {
            OutputTy::Named(name, _) => name.len(),
            OutputTy::AttrSet(set) => {
                set.fields.keys().map(|name| name.len() + 5).sum::<usize>() + 14
            }
            OutputTy::Extern(owned) => {
                let outer = self.outer.as_ref().expect("an outer arena");
                outer.facts[number(owned.root) as usize].weight
            }
            _ => 12,
        };
        let empty = matches!(node, OutputTy::Union(members) | OutputTy::Intersection(members) if members.is_empty());
        let start = Facts {
            weight: own,
            hollow: empty,
        };
        children(node).into_iter().fold(start, |sum, child| {
            let below = self.facts[number(child) as usize];
            Facts {
                weight: sum.weight.saturating_add(below.weight).saturating_add(5),
                hollow: sum.hollow || below.hollow,
            }
        })
    }

    /// A type that may be printed, mostly a recent one.
    pub fn light(&self, random: &mut Random) -> TyRef {
        let count = self.facts.len();
        let back = if random.percent(60) {
            count.min(4)
        } else {
            count
        };
        let from = count - 1 - random.below(back);
        let light = |at: &usize| self.facts[*at].weight <= self.most_weight;
        numbered((0..=from).rev().find(light).unwrap_or(0) as u32)
    }

    pub fn hollow(&self, ty: TyRef) -> bool {
        self.facts[number(ty) as usize].hollow
    }

    /// A child, mostly a recent node, so that types grow deep.
    pub fn child(&self, random: &mut Random) -> TyRef {
        let count = self.arena.len();
        let back = if random.percent(50) {
            count.min(3)
        } else {
            count
        };
        numbered((count - 1 - random.below(back)) as u32)
    }

    /// In a large tame arena no list is a list's member, so none grows.
    fn members(&self, random: &mut Random, kind: Kind, most: usize) -> Vec<TyRef> {
        let mut members: Vec<_> = (0..=random.below(most))
            .map(|_| self.child(random))
            .collect();
        if kind == Kind::Tame && self.arena.len() > MOST_NODES {
            members.retain(|ty| {
                !matches!(
                    self.arena[*ty],
                    OutputTy::Union(_) | OutputTy::Intersection(_)
                )
            });
        }
        if members.is_empty() {
            members.push(numbered(0));
        }
        members
    }
}

fn name(random: &mut Random, kind: Kind) -> SmolStr {
    if kind == Kind::Wild && random.percent(3) {
        return SmolStr::new(random.pick(&ODD_NAMES));
    }
    SmolStr::new(random.pick(&NAMES))
}

fn leaf(random: &mut Random) -> OutputTy {
    match random.below(6) {
        0 => OutputTy::Bottom,
        1 => OutputTy::Top,
        2 => OutputTy::Primitive(random.pick(&PRIMITIVES)),
        3 => OutputTy::TyVar(random.word()),
        _ => OutputTy::TyVar(random.below(4) as u32),
    }
}

pub fn set(random: &mut Random, made: &Made, kind: Kind) -> AttrSetTy<TyRef> {
    let mut set = AttrSetTy::new();
    for _ in 0..random.below(5) {
        let name = name(random, kind);
        if random.percent(40) {
            set.optional_fields.insert(name.clone());
        }
        // A name may be optional and no field at all.
        if kind == Kind::Tame || random.percent(95) {
            set.fields.insert(name, made.child(random));
        }
    }
    if kind == Kind::Tame {
        set.optional_fields
            .retain(|name| set.fields.contains_key(name));
    }
    set.dyn_ty = random.percent(25).then(|| made.child(random));
    set.open = random.percent(50);
    set
}

/// A node over those that are there.
pub fn node(random: &mut Random, made: &Made, kind: Kind) -> OutputTy {
    if made.arena.is_empty() || random.percent(25) {
        return leaf(random);
    }
    if kind == Kind::Wild && random.percent(8) {
        return outside(random, made);
    }
    match random.below(12) {
        0 => OutputTy::List(made.child(random)),
        1 => OutputTy::Neg(made.child(random)),
        2 => OutputTy::Named(name(random, kind), made.child(random)),
        3 => OutputTy::AttrSet(set(random, made, kind)),
        4 | 5 => {
            // The first nodes are mostly leaves, and are met as params again and again.
            let early = numbered(random.below(made.arena.len().min(3)) as u32);
            let (late, body) = (made.child(random), made.child(random));
            let param = random.pick(&[early, late]);
            OutputTy::Lambda { param, body }
        }
        which => {
            let most = if random.percent(5) { 64 } else { 4 };
            list(which % 2 == 0, made.members(random, kind, most))
        }
    }
}

pub fn list(union: bool, members: Vec<TyRef>) -> OutputTy {
    match union {
        true => OutputTy::Union(members),
        false => OutputTy::Intersection(members),
    }
}

/// A node that document 01 has no word for.
fn outside(random: &mut Random, made: &Made) -> OutputTy {
    match (&made.outer, random.below(4)) {
        (Some(outer), 0 | 1) => {
            let light = |ty: &u32| outer.facts[*ty as usize].weight < MOST_WEIGHT / 8;
            let from = random.below(outer.facts.len()) as u32;
            let root = (0..=from).rev().find(light).unwrap_or(0);
            OutputTy::Extern(OwnedTy::new(outer.arena.clone(), numbered(root)))
        }
        (_, 2) => list(random.percent(50), Vec::new()),
        _ => OutputTy::Named(SmolStr::new(random.pick(&ODD_NAMES)), made.child(random)),
    }
}

fn grow(random: &mut Random, made: &mut Made, kind: Kind, most: usize) {
    for _ in 0..random.within(1..=most) {
        let node = node(random, made, kind);
        made.add(node);
    }
}

/// Document 01's ladder: each step makes two lists of a pair, one in each order, unions and intersections in turn.
pub fn ladder(made: &mut Made, steps: usize) -> TyRef {
    let mut pair = [0, 1].map(|index| made.add(OutputTy::TyVar(index)));
    for step in 0..steps {
        let [one, other] = pair;
        pair = [vec![one, other], vec![other, one]].map(|both| made.add(list(step % 2 == 0, both)));
    }
    pair[0]
}

/// Lists in any order, of which some are there in order already.
fn unsorted(random: &mut Random, made: &mut Made) {
    let all = variables(made, 4);
    let union = random.percent(50);
    let mut members = Vec::new();
    for _ in 0..random.within(2..=5) {
        let mut two = [random.below(4), random.below(4)];
        if random.percent(40) {
            two.sort_unstable();
        }
        let inner = made.add(list(union, two.map(|at| all[at]).to_vec()));
        members.extend(random.percent(70).then(|| made.add(OutputTy::List(inner))));
        if random.percent(30) {
            let other = node(random, made, Kind::Wild);
            made.add(other);
        }
    }
    members.push(all[0]);
    made.add(list(!union, members));
}

fn variables(made: &mut Made, count: usize) -> Vec<TyRef> {
    (0..count as u32)
        .map(|index| made.add(OutputTy::TyVar(index)))
        .collect()
}

/// Something that random nodes seldom come to, mostly more of one thing than a limit allows; gives how many nodes may follow, which are
/// few, so that it is met again. Half of them have a name on top that no table holds.
fn rare(random: &mut Random, made: &mut Made) -> usize {
    match random.below(9) {
        0 => long_list(random, made),
        1 => wide_set(random, made),
        2 => many_names(random, made),
        3 => many_nodes(random, made),
        4 => many_words(random, made),
        5 => long_text(random, made),
        6 => spliced(random, made),
        7 => unsorted(random, made),
        _ => _ = ladder(made, random.within(4..=9)),
    }
    if random.percent(50) {
        let last = numbered(made.arena.len() as u32 - 1);
        let name = SmolStr::new(random.pick(&ODD_NAMES));
        made.add(OutputTy::Named(name, last));
    }
    4
}

fn long_list(random: &mut Random, made: &mut Made) {
    let count = random.within(60..=140);
    let members = variables(made, count);
    made.add(list(random.percent(50), members));
}

fn wide_set(random: &mut Random, made: &mut Made) {
    let leaf = made.add(OutputTy::TyVar(1));
    let fields = (0..random.within(60..=300)).map(|at| (SmolStr::new(format!("f{at}")), leaf));
    let set = AttrSetTy::from_fields(fields.collect());
    made.add(OutputTy::AttrSet(set));
}

fn many_names(random: &mut Random, made: &mut Made) {
    let leaf = made.add(OutputTy::TyVar(2));
    let count = random.within(4_060..=4_160);
    // Downwards, so that each name comes before those that are there.
    let names: Vec<_> = (0..count).rev().map(|at| format!("n{at:04}")).collect();
    for part in names.chunks(60) {
        let fields = part.iter().map(|name| (SmolStr::new(name), leaf));
        let set = AttrSetTy::from_fields(fields.collect());
        made.add(OutputTy::AttrSet(set));
    }
}

fn many_nodes(random: &mut Random, made: &mut Made) {
    let count = random.within(4_050..=4_500);
    let all = variables(made, count);
    made.add(OutputTy::Lambda {
        param: all[0],
        body: all[count - 1],
    });
}

fn many_words(random: &mut Random, made: &mut Made) {
    let all = variables(made, 64);
    for turn in 0..random.within(245..=260) {
        let mut members = all.clone();
        members.rotate_left(turn % 64);
        members.truncate(64 - turn / 64);
        made.add(OutputTy::Union(members));
    }
}

/// Its text has some 60,000 to 140,000 bytes.
fn long_text(random: &mut Random, made: &mut Made) {
    made.most_weight = 400_000;
    let mut ty = made.add(OutputTy::TyVar(3));
    let names = [NAMES[15], NAMES[5]].map(SmolStr::new);
    for _ in 0..random.within(9..=10) {
        let fields = names.iter().map(|name| (name.clone(), ty)).collect();
        ty = made.add(OutputTy::AttrSet(AttrSetTy::from_fields(fields)));
    }
}

/// No list is too long, but what they are spliced to may be.
fn spliced(random: &mut Random, made: &mut Made) {
    let count = random.within(60..=70);
    let all = variables(made, count);
    let union = random.percent(50);
    let halves: Vec<_> = all
        .chunks(count / 2)
        .map(|half| made.arena.intern(list(union, half.to_vec())))
        .collect();
    made.learn();
    let both = made.add(list(union, halves));
    // A lambda over the list and itself gives each variable both signs, so that none is dropped.
    made.add(OutputTy::Lambda {
        param: both,
        body: both,
    });
}

/// An arena for `Extern` nodes to point into; it may have such nodes itself.
fn outer(random: &mut Random, kind: Kind, depth: usize) -> Option<Arc<Outer>> {
    if kind == Kind::Tame || depth == 0 || random.percent(40) {
        return None;
    }
    let mut made = Made::new(outer(random, kind, depth - 1));
    grow(random, &mut made, kind, 12);
    let (arena, facts) = (Arc::new(made.arena), made.facts);
    Some(Arc::new(Outer { arena, facts }))
}

/// Two random arenas. All `Extern` nodes of both point into one arena: the order of two such arenas is that of their addresses,
/// which differ from run to run.
pub fn pair(random: &mut Random, kind: Kind) -> (Made, Made) {
    let outer = outer(random, kind, 2);
    let mut one = || {
        let mut made = Made::new(outer.clone());
        let most = match (kind, random.below(25)) {
            (Kind::Wild, 0) => rare(random, &mut made),
            (Kind::Tame, 0) => {
                ladder(&mut made, random.within(4..=9));
                4
            }
            (_, 1) => 300,
            _ => MOST_NODES,
        };
        grow(random, &mut made, kind, most);
        made
    };
    (one(), one())
}
