//! One random case of each operation.

use lang_ty::TypeArena;
use reference::calls;
use reference::case::{Case, Host};
use reference::layout::{Layout, NEW, OLD};
use reference::limited::Lent;
use reference::memory::Memory;
use reference::node::{Field, Node};
use reference::rust::Rust;
use reference::second;
use reference::table::TABLE;
use reference::{Reply, NODES, TEXT, WORDS};

use crate::build::{self, names, names_by, names_of_bytes, printable, Build};
use crate::damage;
use crate::fixes;
use crate::imports;
use crate::lookup;
use crate::random::Random;
use crate::shapes::{aliases, full_of_words, lambdas, shape, shape_in, Shape};
use crate::spelled;
use crate::twin;

/// Most bytes of lent text and of a sheet, both well over their limit, so that a program that reads
/// cases knows how much to keep ready.
const MOST_ROOM: u32 = 70_000;
const MOST_SHEET: usize = 66_000;

pub fn case(op: u8, random: &mut Random) -> Case {
    match op {
        1 => Case::TyvarName(index(random)),
        2 => intern(random),
        3 => order(random),
        4 => simplify(random),
        5 => display(Case::Display, calls::display, calls::display_nix, random),
        6 => Case::Table(table(random, 60).0),
        7 => name_order(random),
        8 => Case::Sheet(sheet(NEW, OLD, random)),
        9..=17 | 20 => on_type(op, random),
        18 => compact(random),
        19 => equal(random),
        21 => write_sheet(random),
        22 => name_at(random),
        23 => display(Case::DisplayNix, calls::display_nix, calls::display, random),
        24 => Case::Convert(sheet(OLD, NEW, random)),
        25 => lookup::find_name(random),
        26 => imports::import(random),
        27 => fixes::fits(random),
        _ => panic!("no operation {op}"),
    }
}

/// Round the ends of the letters, round the powers of ten of the suffix, and any.
fn index(random: &mut Random) -> u32 {
    let near = random.below(3) as u32;
    match random.below(4) {
        0 => random.word(),
        1 => 26u32
            .wrapping_mul(random.word())
            .wrapping_add(near)
            .wrapping_sub(1),
        2 => (26 * 10u32.pow(random.below(9) as u32))
            .wrapping_add(near)
            .wrapping_sub(1),
        _ => u32::MAX - near * (random.word() % 100),
    }
}

/// Lent sizes for an arena that needs at least this much: exact, a little more, or all.
fn lent(random: &mut Random, words: usize, starts: usize) -> (usize, usize) {
    match random.below(4) {
        0 => (WORDS, NODES),
        1 => (words, starts),
        _ => {
            let (more, further) = (random.below(6), random.below(4));
            ((words + more).min(WORDS), (starts + further).min(NODES))
        }
    }
}

pub fn host(arena: &Build, random: &mut Random) -> Host {
    let (words, starts) = lent(random, arena.words, arena.nodes.len());
    arena.host(words, starts)
}

/// A node number that is there, or now and then one that isn't.
pub fn root(arena: &Build, root: u32, random: &mut Random) -> u32 {
    if !random.percent(4) {
        return root;
    }
    let nodes = arena.nodes.len() as u32;
    random.pick(&[nodes, nodes + 1, 4095, 4096, u32::MAX, 1 << 16])
}

fn intern(random: &mut Random) -> Case {
    let Shape { mut arena, .. } = shape(random);
    if random.percent(2) {
        arena = Build::named(arena.names);
    }
    let kind = random.below(11);
    let mut node = match random.percent(25) && !arena.nodes.is_empty() {
        true => arena.nodes[arena.any(random) as usize].encode(),
        false => arena.node(random, kind).encode(),
    };
    if random.percent(3) && !arena.nodes.is_empty() {
        node = with_many_names(&mut arena, random).encode();
    }
    if random.percent(15) {
        node = damage::competing(NEW, arena.nodes.len(), arena.names.len(), random);
    } else if random.percent(30) {
        for _ in 0..random.pick(&[1, 1, 2, 3]) {
            damage::node(&mut node, arena.nodes.len(), arena.names.len(), random);
        }
    }
    // Room for the node to the word, or a word or a start too little.
    let (mut words, mut starts) = lent(random, arena.words, arena.nodes.len());
    if random.percent(40) {
        words = arena.words + node.len() - random.below(2).min(node.len());
        starts = arena.nodes.len() + random.pick(&[0, 1, 1, 1, 1]);
    }
    let mut host = arena.host(words.min(WORDS), starts.min(NODES));
    if random.percent(12) {
        damage::host(&mut host, random);
    }
    Case::Intern(host, node)
}

/// A node at the limits of names and fields, over a table of 4,096 names.
fn with_many_names(arena: &mut Build, random: &mut Random) -> Node {
    arena.names = names(random, NEW.names);
    let child = arena.child(random);
    if random.percent(30) {
        return Node::Named(random.pick(&[255, 256, 4095]), child);
    }
    let first = random.pick(&[0, 1, 193, 4032]);
    let field = |name| Field {
        optional: name % 3 == 0,
        name,
        child,
    };
    let fields = (first..=first + 63).map(field).collect();
    Node::AttrSet(fields, random.percent(50).then_some(child), false)
}

fn order(random: &mut Random) -> Case {
    let Shape { arena, .. } = shape(random);
    let left = arena.any(random);
    let kind = std::mem::discriminant(&arena.nodes[left as usize]);
    let alike = |n: &u32| std::mem::discriminant(&arena.nodes[*n as usize]) == kind;
    let same: Vec<u32> = (0..arena.nodes.len() as u32).filter(alike).collect();
    let right = match random.below(10) {
        0 => left,
        1..8 => random.pick(&same),
        _ => arena.any(random),
    };
    let (left, right) = (root(&arena, left, random), root(&arena, right, random));
    let mut host = host(&arena, random);
    if random.percent(8) {
        damage::host(&mut host, random);
    }
    Case::Order(host, left, right)
}

fn simplify(random: &mut Random) -> Case {
    let Shape { arena, root: at } = shape(random);
    let needs = |all| second::run(&arena.nodes, at, all).arena.nodes;
    let mut host = tight(&arena, random, needs);
    if random.percent(7) {
        damage::host(&mut host, random);
    }
    Case::Simplify(host, root(&arena, at, random))
}

/// The arena in lent memory that a call may fill: `needs` gives the nodes that stand there after the
/// call if everything is lent.
fn tight(arena: &Build, random: &mut Random, needs: impl Fn(Lent) -> Vec<Node>) -> Host {
    if random.percent(20) {
        return host(arena, random);
    }
    if random.percent(60) {
        return arena.host(WORDS, NODES);
    }
    // What the call needs to the word, or one too little of either.
    let after = needs(Lent {
        words: WORDS,
        starts: NODES,
    });
    let words: usize = after.iter().map(Node::size).sum();
    let (short_words, short_starts) = random.pick(&[(0, 0), (0, 0), (1, 0), (0, 1)]);
    let words = (words - short_words).max(arena.words).min(WORDS);
    let starts = (after.len() - short_starts)
        .max(arena.nodes.len())
        .min(NODES);
    arena.host(words, starts)
}

fn on_type(op: u8, random: &mut Random) -> Case {
    let Shape { arena, root: at } = match op {
        15 if random.percent(50) => lambdas(random),
        16 if random.percent(50) => aliases(random),
        _ => shape(random),
    };
    let call = match op {
        10 => TypeArena::normalize_vars,
        12 => TypeArena::normalize_replacing_unknown,
        17 => TypeArena::normalize_set_ops,
        _ => |_: &mut TypeArena, root| root,
    };
    let needs = |_| {
        let mut rust = Rust::holding(&arena.nodes, &arena.texts());
        rust.change(at, call);
        rust.nodes()
    };
    let mut host = tight(&arena, random, needs);
    if random.percent(7) {
        damage::host(&mut host, random);
    }
    Case::OnType(op, host, root(&arena, at, random))
}

fn compact(random: &mut Random) -> Case {
    let Shape { arena, root: at } = shape(random);
    let (nodes, _) = Rust::holding(&arena.nodes, &arena.texts()).compact(at);
    let words: usize = nodes.iter().map(Node::size).sum();
    let (words, starts) = match random.percent(50) {
        true => lent(random, words, nodes.len()),
        false => (words - random.below(2), nodes.len() - random.below(2)),
    };
    // Whatever the target holds is cleared.
    let mut target = Memory {
        nodes: random.word(),
        used: random.word(),
        words: vec![0; words],
        starts: vec![0; starts],
    };
    if words > 0 && starts > 0 {
        target.words[random.below(words)] = random.word();
        target.starts[random.below(starts)] = random.word();
    }
    if random.percent(3) {
        target.words.resize(WORDS + random.below(2), 0);
        target.starts.resize(NODES + random.below(2), 0);
    }
    let mut host = host(&arena, random);
    if random.percent(7) {
        damage::host(&mut host, random);
    }
    Case::Compact(host, root(&arena, at, random), target)
}

/// A type beside a copy of it under other numbers and in a larger table, with one node changed or none.
fn equal(random: &mut Random) -> Case {
    let Shape { arena, root: at } = shape(random);
    let (copy, copied) = twin::copy(&arena, at, random);
    let mut left = host(&arena, random);
    let mut right = host(&copy, random);
    if random.percent(7) {
        damage::host(&mut left, random);
    }
    if random.percent(7) {
        damage::host(&mut right, random);
    }
    let mut sides = [
        (left, root(&arena, at, random)),
        (right, root(&copy, copied, random)),
    ];
    if random.percent(50) {
        sides.reverse();
    }
    let [left, right] = sides;
    Case::Equal(left, right)
}

/// The Rust's text, or the one with spelled names.
pub type Print = fn(&Host, u32, u32) -> Reply<String>;

/// What is lent is measured by the text that is asked for, or now and then by the other.
fn display(
    call: fn(Host, u32, u32) -> Case,
    print: Print,
    other: Print,
    random: &mut Random,
) -> Case {
    let Shape {
        mut arena,
        root: mut at,
    } = printed(NEW, random);
    if random.percent(1) {
        at = long_text(&mut arena, random);
    }
    let print = if random.percent(15) { other } else { print };
    let mut host = host(&arena, random);
    let text = print(&host, at, TEXT as u32);
    let length = text.map_or(TEXT as u32, |text| text.len() as u32);
    let room = room(length, random);
    if random.percent(6) {
        damage::host(&mut host, random);
    }
    call(host, root(&arena, at, random), room)
}

/// A type to be printed, under names that this layout allows: often one with many names, now and then one whose text, bare or
/// spelled, is about as long as a text may be.
fn printed(layout: Layout, random: &mut Random) -> Shape {
    match random.below(100) {
        0..25 => spelled::shape(random),
        25..27 => {
            let two = names_by(random, 2, spelled::name);
            let wanted = random.pick(&[TEXT - 1, TEXT, TEXT, TEXT + 1]);
            spelled::long(two, wanted, random.pick(&spelled::LENGTHS))
        }
        _ => shape_in(layout, random),
    }
}

/// How many bytes are lent for so many: as many, one less, one or a few more, or any number.
fn room(length: u32, random: &mut Random) -> u32 {
    match random.below(6) {
        0 | 1 => length,
        2 => length - 1,
        3 => {
            let more = random.below(100) as u32;
            length + random.pick(&[1, more])
        }
        4 => random.pick(&[0, 1, 65_535, 65_536, 65_537, MOST_ROOM]),
        _ => random.below(length as usize + 1) as u32,
    }
}

fn write_sheet(random: &mut Random) -> Case {
    let Shape { arena, root: at } = match random.percent(1) {
        true => full_sheet(random),
        false => shape(random),
    };
    let length = 6 + arena.table().len() + 4 * arena.words;
    let room = room(length as u32, random).min(MOST_ROOM);
    let mut host = host(&arena, random);
    if random.percent(6) {
        damage::host(&mut host, random);
    }
    Case::WriteSheet(host, root(&arena, at, random), room)
}

/// A type whose text has 65,533 bytes, and up to three wraps of two or three bytes each round it.
fn long_text(arena: &mut Build, random: &mut Random) -> u32 {
    let mut at = arena.var(0);
    for _ in 0..14 {
        at = arena.put(Node::Union(vec![at, at]));
    }
    for _ in 0..random.below(3) {
        at = arena.put(random.pick(&[Node::List(at), Node::Neg(at)]));
    }
    at
}

/// A table, so many in a hundred with faults, and how many names it was made of.
fn table(random: &mut Random, faulty: usize) -> (Vec<u8>, usize) {
    let limits = random.below(3);
    let names = match random.below(100) {
        0..5 => names(random, NEW.names - 1 + limits),
        5..8 => names_of_bytes(random, TABLE - 1 + limits),
        _ => {
            let count = random.pick(&[0, 1, 2, 3, 8, 30, 255, 256, 257]);
            names(random, count)
        }
    };
    (damage::table_of(&names, faulty, random), names.len())
}

/// Mostly a name that the table has, else one of the next, or any number.
fn name_at(random: &mut Random) -> Case {
    let (table, count) = table(random, 15);
    let number = match random.below(8) {
        0 => (count + random.below(3)) as u32,
        1 => random.word(),
        _ => random.below(count.max(1)) as u32,
    };
    Case::NameAt(table, number)
}

fn name_order(random: &mut Random) -> Case {
    let mut left = printable(random, 1..=64);
    if random.percent(5) {
        left = (0..random.within(0..=255))
            .map(|_| random.next() as u8)
            .collect();
    }
    let mut right = left.clone();
    match random.below(5) {
        0 => {}
        1 => right = printable(random, 1..=64),
        2 => right.truncate(random.within(0..=left.len())),
        _ if left.is_empty() => right = printable(random, 1..=3),
        _ => {
            let at = random.below(left.len());
            right[at] = random.within(32..=126) as u8;
        }
    }
    if random.percent(50) {
        std::mem::swap(&mut left, &mut right);
    }
    Case::Names(left, right)
}

/// A sheet of this layout or, now and then, of the other.
fn sheet(layout: Layout, other: Layout, random: &mut Random) -> Vec<u8> {
    let layout = if random.percent(4) { other } else { layout };
    let Shape {
        mut arena,
        root: at,
    } = match random.percent(1) {
        true => full_sheet(random),
        false => printed(layout, random),
    };
    if random.percent(1) {
        let count = layout.names + random.below(2);
        arena.names = names(random, count);
    }
    let count = arena.nodes.len();
    let nodes = arena.nodes.iter().map(|node| node.encode_in(layout));
    let mut nodes: Vec<Vec<u32>> = nodes.collect();
    // One node more, now and then: a repeat, a faulty one, or the 4,097th.
    let more = match random.below(100) {
        0..3 => Some(random.pick(&nodes)),
        3..9 => Some(damage::competing(layout, count, arena.names.len(), random)),
        _ if count == NODES => Some(Node::List(4095).encode()),
        _ => None,
    };
    nodes.extend(more);
    let mut sheet = build::sheet(&arena.names, &nodes, root(&arena, at, random));
    if random.percent(35) {
        for _ in 0..random.pick(&[1, 1, 2]) {
            damage::sheet(&mut sheet, random);
        }
    }
    sheet.truncate(MOST_SHEET);
    sheet
}

/// With two bytes of table, 16,382 words make a sheet of exactly 65,536 bytes; a word more is too much.
fn full_sheet(random: &mut Random) -> Shape {
    let mut arena = Build::named(vec![vec![b'x']]);
    let root = full_of_words(&mut arena, random);
    Shape { arena, root }
}

#[cfg(test)]
mod tests {
    use reference::sheet::read;

    use super::*;

    /// Request A2's sentence: an old sheet with no name above 0 reads as it did, any other good one is 4 under the new layout.
    #[test]
    fn old_sheets_by_the_new_rules() {
        let mut met = [0, 0];
        for case in 0..2_000 {
            let bytes = sheet(OLD, NEW, &mut Random::new(9, 24, case));
            let Ok(old) = read(OLD, &bytes) else { continue };
            let first_alone = |node: &Node| node.names().iter().all(|&name| name == 0);
            let reads = old.nodes.iter().all(first_alone);
            met[usize::from(reads)] += 1;
            assert_eq!(read(NEW, &bytes), if reads { Ok(old) } else { Err(4) });
        }
        assert!(met.iter().all(|&count| count > 100), "{met:?}");
    }
}
