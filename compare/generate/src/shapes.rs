//! Arenas of many shapes. Most are small; some fill what may be lent.

use reference::layout::{Layout, NEW};
use reference::node::{Field, Node};
use reference::{MEMBERS, NODES, WORDS};

use crate::build::{names, Build};
use crate::random::Random;

/// An arena and a root in it.
pub struct Shape {
    pub arena: Build,
    pub root: u32,
}

pub fn shape(random: &mut Random) -> Shape {
    shape_in(NEW, random)
}

/// A shape with no more names than this layout allows.
pub fn shape_in(layout: Layout, random: &mut Random) -> Shape {
    let count = match random.below(100) {
        0 => layout.names - random.below(2),
        1..20 => 0,
        _ => random.within(1..=5),
    };
    let mut arena = Build::named(names(random, count));
    let root = match random.below(1000) {
        0..450 => algebra(&mut arena, random),
        450..560 => every_kind(&mut arena, random),
        560..650 => ladder(&mut arena, random),
        650..700 => wide(&mut arena, random),
        700..780 => splice(&mut arena, random),
        780..840 => polar(&mut arena, random),
        840..890 => sets(layout, &mut arena, random),
        890..950 => siblings(&mut arena, random),
        950..990 => {
            let length = random.within(2..=200);
            chain(&mut arena, random, length)
        }
        990..995 => {
            let length = NODES - random.below(3);
            chain(&mut arena, random, length)
        }
        995..998 => full_of_nodes(&mut arena, random),
        _ => full_of_words(&mut arena, random),
    };
    let root = if random.percent(10) {
        arena.any(random)
    } else {
        root
    };
    Shape { arena, root }
}

pub fn leaves(arena: &mut Build, random: &mut Random) {
    for index in 0..random.within(1..=4) {
        arena.var(index as u32);
    }
    for kind in [0, 1, 2, 2, 3] {
        if random.percent(50) {
            let leaf = arena.node(random, kind);
            arena.put(leaf);
        }
    }
}

fn last(arena: &Build) -> u32 {
    arena.nodes.len() as u32 - 1
}

/// Few leaves under many unions, intersections, lambdas and `Neg`: here passes have most to do.
fn algebra(arena: &mut Build, random: &mut Random) -> u32 {
    leaves(arena, random);
    // Lists of lists alone take the most passes.
    let only_lists = random.percent(40);
    for _ in 0..random.within(1..=20) {
        let kinds = [7, 7, 7, 7, 8, 8, 8, 8, 10, 5, 5, 4, 6, 9];
        let kind = random.pick(if only_lists { &kinds[..9] } else { &kinds });
        let node = arena.node(random, kind);
        arena.put(node);
    }
    last(arena)
}

fn every_kind(arena: &mut Build, random: &mut Random) -> u32 {
    let count = if random.percent(5) {
        300
    } else {
        random.within(1..=40)
    };
    for _ in 0..count {
        let kind = random.below(11);
        let node = arena.node(random, kind);
        arena.put(node);
    }
    last(arena)
}

/// Each step turns a pair into two lists of it, in both orders. Document 01's ladder alternates the
/// kinds; others choose them freely, or put something round one side.
fn ladder(arena: &mut Build, random: &mut Random) -> u32 {
    leaves(arena, random);
    let mut pair = (arena.var(0), arena.var(1));
    let most = if random.percent(10) { 60 } else { 12 };
    let free = random.percent(50);
    for step in 0..random.within(1..=most) {
        let union = if free {
            random.percent(50)
        } else {
            step % 2 == 0
        };
        let mut list = |first, second| match union {
            true => arena.put(Node::Union(vec![first, second])),
            false => arena.put(Node::Intersection(vec![first, second])),
        };
        pair = (list(pair.0, pair.1), list(pair.1, pair.0));
        if free && random.percent(15) {
            let kind = random.pick(&[4, 5, 9, 10]);
            let node = arena.node(random, kind);
            pair.1 = arena.put(node);
        }
    }
    pair.0
}

/// Lists with up to 64 members and many repeats.
fn wide(arena: &mut Build, random: &mut Random) -> u32 {
    leaves(arena, random);
    for _ in 0..random.within(1..=4) {
        let count = if random.percent(40) {
            MEMBERS
        } else {
            random.within(1..=MEMBERS)
        };
        let members = (0..count).map(|_| arena.any(random)).collect();
        arena.put(if random.percent(50) {
            Node::Union(members)
        } else {
            Node::Intersection(members)
        });
    }
    last(arena)
}

/// Two lists whose members together are 63 to 66 different ones. Now and then some have one sign only,
/// `never` or `any` stands among them, or one needs a new node, so that 8 meets what comes before it.
fn splice(arena: &mut Build, random: &mut Random) -> u32 {
    let different = random.within(63..=66);
    let list: fn(Vec<u32>) -> Node = random.pick(&[Node::Union as _, Node::Intersection as _]);
    let lists = random.percent(50);
    let mut members = Vec::new();
    for index in 0..different as u32 {
        let var = arena.var(index);
        members.push(if lists {
            arena.put(Node::List(var))
        } else {
            var
        });
    }
    if random.percent(15) {
        members[random.below(60)] = arena.put(random.pick(&[Node::Bottom, Node::Top]));
    }
    if random.percent(40) {
        // This one becomes [int], a new node unless that is a member already.
        let (var, int) = (arena.var(999), arena.put(Node::Primitive(2)));
        let union = arena.put(Node::Union(vec![var, int]));
        members[random.below(60)] = arena.put(Node::List(union));
        if random.percent(50) {
            members[random.below(60)] = arena.put(Node::List(int));
        }
    }
    let cut = random.within(8..=60);
    let overlap = random.within(0..=cut.min(4));
    let first = arena.put(list(members[..cut.min(MEMBERS)].to_vec()));
    let rest = &members[cut - overlap..];
    let second = arena.put(list(rest[..rest.len().min(MEMBERS)].to_vec()));
    let mut root = arena.put(list(vec![first, second]));
    // Params give the variables their other sign, all or all but one.
    let skipped = random.below(2 * different);
    for index in 0..different {
        if !lists && index != skipped {
            let var = arena.var(index as u32);
            root = arena.put(Node::Lambda(var, root));
        }
    }
    root
}

/// Unions at positive places and intersections at negative ones only.
fn polar(arena: &mut Build, random: &mut Random) -> u32 {
    leaves(arena, random);
    let depth = random.within(1..=5);
    polar_at(arena, random, true, depth)
}

fn polar_at(arena: &mut Build, random: &mut Random, positive: bool, depth: usize) -> u32 {
    if depth == 0 {
        let kind = random.pick(&[0, 1, 2, 3, 3, 3]);
        let leaf = match kind {
            3 => Node::TyVar(random.below(4) as u32),
            _ => arena.node(random, kind),
        };
        return arena.put(leaf);
    }
    let mut below = |sign: bool| polar_at(arena, random, sign, depth - 1);
    let node = match depth * 7 % 5 {
        0 => Node::Neg(below(!positive)),
        1 => Node::Lambda(below(!positive), below(positive)),
        2 => Node::List(below(positive)),
        _ => {
            let members = vec![below(positive), below(positive), below(positive)];
            if positive {
                Node::Union(members)
            } else {
                Node::Intersection(members)
            }
        }
    };
    arena.put(node)
}

/// Sets of all sizes over larger tables.
fn sets(layout: Layout, arena: &mut Build, random: &mut Random) -> u32 {
    let count = random.pick(&[1, 3, 64, 65, 255, 256, layout.names]);
    arena.names = names(random, count);
    leaves(arena, random);
    for _ in 0..random.within(1..=6) {
        let most = random.pick(&[1, 3, MEMBERS]);
        let mut fields = arena.fields(random, most);
        if random.percent(20) {
            let name = (arena.names.len() - 1) as u16;
            let child = arena.child(random);
            fields.retain(|f| f.name != name);
            fields.truncate(MEMBERS - 1);
            fields.push(Field {
                optional: random.percent(50),
                name,
                child,
            });
        }
        let dynamic = random.percent(50).then(|| arena.child(random));
        arena.put(Node::AttrSet(fields, dynamic, random.percent(50)));
    }
    last(arena)
}

/// Nodes that are like one another but for one place: what an order must tell apart.
fn siblings(arena: &mut Build, random: &mut Random) -> u32 {
    leaves(arena, random);
    let kind = random.within(3..=10);
    let mut node = arena.node(random, kind);
    let children = arena.nodes.len();
    for _ in 0..random.within(2..=12) {
        arena.put(node.clone());
        let child = random.below(children) as u32;
        match &mut node {
            Node::Union(members) | Node::Intersection(members) => match random.below(3) {
                0 if members.len() > 1 => members.truncate(random.within(1..=members.len() - 1)),
                1 if members.len() < MEMBERS => members.push(child),
                _ => {
                    let at = random.below(members.len());
                    members[at] = child;
                }
            },
            Node::AttrSet(fields, dynamic, open) => match random.below(6) {
                0 => *open = !*open,
                1 => *dynamic = dynamic.is_none().then_some(child),
                2 => drop(fields.pop()),
                3 if fields.is_empty() => *fields = arena.fields(random, 4),
                _ if fields.is_empty() => *open = !*open,
                3 => {
                    let at = random.below(fields.len());
                    fields[at].optional = !fields[at].optional;
                }
                _ => {
                    let at = random.below(fields.len());
                    fields[at].child = child;
                }
            },
            Node::Lambda(param, body) => {
                *(if random.percent(50) { param } else { body }) = child;
            }
            _ => node = arena.node(random, kind),
        }
    }
    last(arena)
}

/// Lambdas that share few params.
pub fn lambdas(random: &mut Random) -> Shape {
    let mut arena = Build::default();
    leaves(&mut arena, random);
    let params = arena.nodes.len();
    for _ in 0..random.within(1..=8) {
        let param = random.below(params) as u32;
        let body = arena.any(random);
        arena.put(Node::Lambda(param, body));
    }
    let members = arena.children(random, 3);
    let root = arena.put(Node::Union(members));
    Shape { arena, root }
}

/// Names of names.
pub fn aliases(random: &mut Random) -> Shape {
    let mut arena = Build::named(names(random, 3));
    let mut root = algebra(&mut arena, random);
    for _ in 0..random.within(0..=5) {
        root = arena.put(Node::Named(random.below(3) as u16, root));
    }
    Shape { arena, root }
}

/// A deep type of so many nodes, of one kind or of all.
fn chain(arena: &mut Build, random: &mut Random, length: usize) -> u32 {
    let one = random.percent(60).then(|| random.within(4..=10));
    let leaf = arena.var(0);
    let mut top = leaf;
    while arena.nodes.len() < length {
        let kind = one.unwrap_or_else(|| random.within(4..=10));
        let side = if random.percent(50) { top } else { leaf };
        top = arena.put(match kind {
            5 if side == leaf => Node::Lambda(leaf, top),
            5 => Node::Lambda(top, leaf),
            6 => Node::AttrSet(vec![], Some(top), random.percent(50)),
            7 => Node::Union(vec![top; random.within(1..=2)]),
            8 => Node::Intersection(vec![top, side]),
            9 if !arena.names.is_empty() => Node::Named(0, top),
            10 => Node::Neg(top),
            _ => Node::List(top),
        });
    }
    top
}

/// All 4,096 nodes, or one or two short of them.
fn full_of_nodes(arena: &mut Build, random: &mut Random) -> u32 {
    arena.var(0);
    let nodes = NODES - random.below(3);
    while arena.nodes.len() < nodes {
        let kind = random.pick(&[3, 4, 5, 10]);
        let node = arena.node(random, kind);
        arena.put(node);
    }
    last(arena)
}

/// All 16,384 words, or one or two short of them.
pub fn full_of_words(arena: &mut Build, random: &mut Random) -> u32 {
    arena.var(0);
    let words = WORDS - random.below(3);
    while arena.words < words {
        // The last list takes what is left, so that the words come out exactly.
        let left = words - arena.words;
        let size = if left <= 14 {
            left
        } else {
            random.within(4..=12)
        };
        let members = arena.children(random, size - 1);
        arena.put(match size {
            1 => Node::Bottom,
            _ if random.percent(50) => Node::Union(members),
            _ => Node::Intersection(members),
        });
    }
    last(arena)
}
