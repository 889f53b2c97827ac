//! The worked types of document 01, and types at each limit, for every operation.

use std::collections::BTreeSet;

use reference::calls;
use reference::case::{Case, Host};
use reference::layout::{Layout, CHILD, NEW, OLD};
use reference::memory::Memory;
use reference::node::{Field, Node};
use reference::spelling::RESERVED;
use reference::{MEMBERS, NODES, TEXT, WORDS};

use crate::build::{table, Build};
use crate::cases::Print;
use crate::fixed_fixes;
use crate::fixed_imports;
use crate::shapes::Shape;
use crate::spelled::{long, FREE, LENGTHS};

pub fn cases(op: u8) -> Vec<Case> {
    match op {
        1 => [0, 25, 26, u32::MAX - 1, u32::MAX]
            .map(Case::TyvarName)
            .into(),
        2 => nodes(),
        3 => on_types(|host, root| {
            [root, root - 1]
                .map(|r| Case::Order(host.clone(), root, r))
                .into()
        }),
        4 => on_types(|host, root| vec![Case::Simplify(host, root)]),
        5 => texts(Case::Display, calls::display),
        6 => tables().map(|names| Case::Table(names.table())).collect(),
        7 => vec![Case::Names(vec![b'x'; 64], vec![b'x'; 63])],
        8 => sheets(NEW, Case::Sheet),
        9..=17 | 20 => on_types(|host, root| vec![Case::OnType(op, host, root)]),
        18 => on_types(|host, root| {
            let target = host.memory.clone();
            let none = Memory::default();
            vec![
                Case::Compact(host.clone(), root, target),
                Case::Compact(host, root, none),
            ]
        }),
        19 => on_types(|host, root| vec![Case::Equal((host.clone(), root), (host, root))]),
        21 => on_types(|host, root| {
            let length = 6 + host.table.len() as u32 + 4 * host.memory.used;
            [TEXT as u32 + 1, length, length - 1]
                .map(|r| Case::WriteSheet(host.clone(), root, r))
                .into()
        }),
        22 => places(),
        23 => texts(Case::DisplayNix, calls::display_nix),
        24 => sheets(OLD, Case::Convert),
        25 => lookups(),
        26 => fixed_imports::cases(),
        27 => fixed_fixes::cases(),
        _ => panic!("no operation {op}"),
    }
}

/// A call on every type, first with all memory lent and then with no more than the arena fills.
fn on_types(call: impl Fn(Host, u32) -> Vec<Case>) -> Vec<Case> {
    on(types(), call)
}

fn on(types: Vec<(Build, u32)>, call: impl Fn(Host, u32) -> Vec<Case>) -> Vec<Case> {
    let mut cases = Vec::new();
    for (arena, root) in types {
        cases.extend(call(arena.host(WORDS, NODES), root));
        cases.extend(call(arena.host(arena.words, arena.nodes.len()), root));
    }
    cases
}

/// Every type and those with names in quotes, printed into all bytes, into as many as its text has, one less and one more,
/// and into few.
fn texts(call: fn(Host, u32, u32) -> Case, print: Print) -> Vec<Case> {
    on([types(), named()].concat(), |host, root| {
        let most = TEXT as u32;
        let length = print(&host, root, most).map_or(most, |text| text.len() as u32);
        [most, length - 1, length, length + 1, 3, 2]
            .map(|room| call(host.clone(), root, room))
            .into()
    })
}

/// Types with names in quotes: a set with the worked names of request A1, names at the ends of what an identifier may have, all
/// reserved words, the same with a letter more, and words that aren't reserved, each a field and an alias; texts of 65,536 bytes
/// and of one more, where they are bare and where they are spelled.
fn named() -> Vec<(Build, u32)> {
    let worked = r#"roll angle|rec1|_|a'b-c|9a|-a|say "hi"|a\b|${x}|$x|$${|\${"#;
    let near = "'a|z'|A0|Z9|a/|a:|a.b|a@b|a[b|a`b|a{b|x$|$}";
    let longer = RESERVED.map(|word| format!("{word}s"));
    let words = RESERVED.into_iter().chain(FREE);
    let words = words.chain(longer.iter().map(String::as_str));
    let all = worked.split('|').chain(near.split('|'));
    let all: BTreeSet<&str> = all.chain(words).collect();
    let mut types = vec![every_name(all.into_iter().map(Vec::from).collect())];
    let pairs = [
        ["\"".repeat(64), "\\".repeat(64)],
        ["${", "or"].map(String::from),
    ];
    for two in pairs {
        for length in LENGTHS {
            for wanted in [TEXT, TEXT + 1] {
                let names = two.iter().map(|name| name.clone().into_bytes()).collect();
                let Shape { arena, root } = long(names, wanted, length);
                types.push((arena, root));
            }
        }
    }
    types
}

/// The set that has each name as a field, of which the type is the alias of that name.
fn every_name(names: Vec<Vec<u8>>) -> (Build, u32) {
    let count = names.len() as u16;
    let mut arena = Build::named(names);
    let int = arena.put(Node::Primitive(2));
    let field = |name| Field {
        optional: name % 2 == 1,
        name,
        child: arena.put(Node::Named(name, int)),
    };
    let fields = (0..count).map(field).collect();
    over(arena, vec![Node::AttrSet(fields, Some(int), true)])
}

/// A table of so many names of three bytes.
pub fn numbered(count: usize) -> Build {
    let name = |n: usize| {
        let [first, second, third] = [n / 676, n / 26 % 26, n % 26].map(|digit| digit as u8);
        vec![b'A' + first, b'a' + second, b'a' + third]
    };
    Build::named((0..count).map(name).collect())
}

/// A table of so many names, all of one length but for the last.
fn filling(count: usize, length: usize, last: usize) -> Build {
    let names = (1..count).map(|n| format!("{n:0length$}"));
    let names = names.chain(["z".repeat(last)]);
    Build::named(names.map(String::into_bytes).collect())
}

/// A table of so many bytes, about 65,536, in 1,009 names.
fn sized(bytes: usize) -> Build {
    filling(1_009, 64, bytes - 1_008 * 65 - 1)
}

/// A table of 4,096 names, which takes 65,536 bytes if the last has 15.
pub fn fullest(last: usize) -> Build {
    filling(4_096, 15, last)
}

/// Tables at the limits of names and bytes, and past them.
fn tables() -> impl Iterator<Item = Build> {
    let counts = [0, 1, 2, 255, 256, 257, 4_095, 4_096, 4_097].map(numbered);
    let bytes = [65_535, 65_536, 65_537].map(sized);
    let all = counts.into_iter().chain(bytes);
    all.chain([15, 16].map(fullest))
}

/// The first and the last name of a table, and the numbers past it, for tables of every limit.
fn places() -> Vec<Case> {
    let longest = Build::named(vec![b"x".to_vec(), vec![b'x'; 64]]);
    let places = |table: Build| {
        let count = table.names.len() as u32;
        let numbers = [0, count.saturating_sub(1), count, u32::MAX];
        numbers.map(|number| Case::NameAt(table.table(), number))
    };
    tables().chain([longest]).flat_map(places).collect()
}

/// Texts sought in tables of every limit; in tables of up to 17 names each name and a text behind each, in a full one some; each
/// byte among all names of one byte; and names of a table sought in another.
fn lookups() -> Vec<Case> {
    let mut cases = Vec::new();
    for Build { names, .. } in tables() {
        cases.extend(sought(&names, at_ends(&names)));
    }
    cases.extend(sought(&numbered(2).names, vec![vec![b'A'; 65_537]]));
    for count in 0..=17 {
        let names = numbered(count).names;
        cases.extend(sought(&names, with_texts_behind(&names)));
    }
    let fronts = full_of_fronts();
    let some: Vec<Vec<u8>> = fronts.iter().step_by(127).cloned().collect();
    cases.extend(sought(&fronts, with_texts_behind(&some)));
    let bytes: Vec<Vec<u8>> = (0..=255).map(|byte| vec![byte]).collect();
    cases.extend(sought(&bytes[32..=126], bytes.clone()));
    cases.extend(of_others());
    cases
}

/// These names, a text behind each, and the text of no byte.
fn with_texts_behind(names: &[Vec<u8>]) -> Vec<Vec<u8>> {
    let behind = names.iter().map(|name| [name, &b" "[..]].concat());
    let texts = names.iter().cloned().chain(behind);
    texts.chain([vec![]]).collect()
}

/// 4,096 names that begin with one another: all of one to eleven letters `a` and `b`, and two more.
fn full_of_fronts() -> Vec<Vec<u8>> {
    let letter = |number: usize, at: usize| b'a' + (number >> at & 1) as u8;
    let name = |number, length| (0..length).map(|at| letter(number, at)).collect();
    let all = (1..=11).flat_map(|length| (0..1 << length).map(move |number| (number, length)));
    let mut names: Vec<Vec<u8>> = all.map(|(number, length)| name(number, length)).collect();
    names.extend([b"c".to_vec(), b"d".to_vec()]);
    names.sort();
    names
}

/// Every name of a part of 24 names sought in each part, and some names of a full table sought in it and in a full one that has
/// none of them.
fn of_others() -> Vec<Case> {
    let mut cases = Vec::new();
    let parts = parts();
    for first in &parts {
        for second in &parts {
            cases.extend(sought(first, second.clone()));
        }
    }
    let all = numbered(2 * NEW.names).names;
    let [even, odd] = [0, 1].map(|first| -> Vec<Vec<u8>> {
        let every_second = all.iter().skip(first).step_by(2);
        every_second.cloned().collect()
    });
    let some: Vec<Vec<u8>> = even.iter().step_by(127).cloned().collect();
    for full in [&even, &odd] {
        cases.extend(sought(full, some.clone()));
    }
    cases
}

fn sought(names: &[Vec<u8>], texts: Vec<Vec<u8>>) -> Vec<Case> {
    let table = table(names);
    let case = |text| Case::FindName(table.clone(), text);
    texts.into_iter().map(case).collect()
}

/// Texts before all names and after all; the first name, the last and one between, a front of each, the same with a byte more or
/// 256 more, or behind its length byte.
fn at_ends(names: &[Vec<u8>]) -> Vec<Vec<u8>> {
    let mut texts = vec![vec![], vec![0], vec![b'~'; 65], vec![255; 300]];
    let places = [0, names.len() / 2, names.len().saturating_sub(1)];
    for name in places.into_iter().filter_map(|place| names.get(place)) {
        let length = name.len();
        texts.push(name.clone());
        texts.push(name[..length - 1].to_vec());
        texts.push([name, &b" "[..]].concat());
        texts.push([name, &[b'x'; 256][..]].concat());
        texts.push([&[length as u8], &name[..]].concat());
    }
    texts
}

/// Parts of 24 names that begin with one another: all, none, every second (the others too), those of either end, every third.
pub fn parts() -> Vec<Vec<Vec<u8>>> {
    let lengths = (1..=12).flat_map(|n| [vec![b'a'; n], [vec![b'a'; n], vec![b'b']].concat()]);
    let all: BTreeSet<Vec<u8>> = lengths.collect();
    let part = |keep: fn(usize) -> bool| {
        let kept = all.iter().enumerate().filter(|(number, _)| keep(*number));
        kept.map(|(_, name)| name.clone()).collect()
    };
    let kept: [fn(usize) -> bool; 7] = [
        |_| true,
        |_| false,
        |n| n % 2 == 0,
        |n| n % 2 == 1,
        |n| n < 12,
        |n| n >= 12,
        |n| n % 3 == 0,
    ];
    kept.map(part).into()
}

/// The types, each with its arena: a, b, `never`, `any`, `int`, `null` and `bool` are nodes 0 to 6.
pub fn types() -> Vec<(Build, u32)> {
    let union = |members: &[u32]| Node::Union(members.to_vec());
    let isect = |members: &[u32]| Node::Intersection(members.to_vec());
    // Each line is a type's nodes after the leaves, from 7 on; the last is its root.
    let worked = vec![
        vec![union(&[0, 4])],
        vec![union(&[0, 4]), Node::Lambda(0, 7)],
        vec![union(&[0, 1])],
        vec![union(&[0, 2])],
        vec![union(&[2, 0])],
        vec![isect(&[3, 0]), union(&[4, 7])],
        vec![union(&[0, 1]), isect(&[7, 4])],
        vec![union(&[5, 6]), union(&[4, 5, 7])],
        vec![isect(&[5, 6]), union(&[4, 7])],
        vec![union(&[5, 6]), isect(&[4, 7])],
        vec![union(&[4, 2])],
        vec![Node::AttrSet(vec![], None, false)],
        vec![Node::AttrSet(vec![], None, true)],
        vec![Node::Lambda(0, 4), pair(7, 7)],
        vec![Node::Lambda(0, 4), Node::Lambda(0, 6), pair(7, 8)],
        vec![Node::Named(1, 0), Node::Neg(7), Node::List(8)],
    ];
    let mut types: Vec<_> = worked
        .into_iter()
        .map(|nodes| over(leaves(2), nodes))
        .collect();
    for (names, last) in [(256, 255), (257, 256), (4_096, 4_095), (4_097, 4_095)] {
        types.push(over(leaves(names), vec![Node::Named(last, 0)]));
    }
    types.extend([fullest(15), fullest(16)].map(last_names));
    types.extend((1..=8).chain([40]).map(ladder));
    types.extend((63..=65).map(spliced));
    types.extend([chain(Node::List), chain(|c| Node::Union(vec![c, 4]))]);
    types.extend([
        long_text(&[Node::Neg]),
        long_text(&[Node::List, Node::List]),
    ]);
    types
}

pub fn leaves(names: usize) -> Build {
    with_leaves(numbered(names))
}

fn with_leaves(mut arena: Build) -> Build {
    arena.var(0);
    arena.var(1);
    for leaf in [Node::Bottom, Node::Top] {
        arena.put(leaf);
    }
    for code in [2, 0, 1] {
        arena.put(Node::Primitive(code));
    }
    arena
}

pub fn over(mut arena: Build, nodes: Vec<Node>) -> (Build, u32) {
    let roots: Vec<u32> = nodes.into_iter().map(|node| arena.put(node)).collect();
    let root = roots[roots.len() - 1];
    (arena, root)
}

/// The set that has the last 64 names of a table as its fields, and a dynamic part.
pub fn last_names(names: Build) -> (Build, u32) {
    let count = names.names.len();
    let field = |name| Field {
        optional: name % 2 == 1,
        name: name as u16,
        child: 4,
    };
    let fields = (count - MEMBERS..count).map(field).collect();
    let set = Node::AttrSet(fields, Some(0), false);
    over(with_leaves(names), vec![set])
}

/// The closed set of two fields.
fn pair(first: u32, second: u32) -> Node {
    let field = |name, child| Field {
        optional: false,
        name,
        child,
    };
    Node::AttrSet(vec![field(0, first), field(1, second)], None, false)
}

/// Document 01's ladder of so many steps.
fn ladder(steps: u32) -> (Build, u32) {
    let mut arena = leaves(2);
    let mut pair = (0, 1);
    for step in 1..=steps {
        let list = if step % 2 == 1 {
            Node::Union
        } else {
            Node::Intersection
        };
        let second = list(vec![pair.1, pair.0]);
        pair = (arena.put(list(vec![pair.0, pair.1])), arena.put(second));
    }
    (arena, pair.0)
}

/// A union of two unions that have so many different members together, none of them removable, and of repeats behind them.
fn spliced(different: u32) -> (Build, u32) {
    let mut arena = leaves(2);
    let mut member = |index| {
        let var = arena.var(index);
        arena.put(Node::List(var))
    };
    let members: Vec<u32> = (0..different).map(&mut member).collect();
    let first = arena.put(Node::Union(members[..40].to_vec()));
    let second = arena.put(Node::Union(members[30..].to_vec()));
    let root = Node::Union(vec![first, second, members[0], first]);
    over(arena, vec![root])
}

/// A chain that fills all 4,096 nodes.
pub fn chain(step: fn(u32) -> Node) -> (Build, u32) {
    let mut arena = leaves(2);
    let mut root = 0;
    while arena.nodes.len() < NODES {
        root = arena.put(step(root));
    }
    (arena, root)
}

/// A type whose text has 65,533 bytes, in these wraps: `Neg` adds three bytes, a list two.
fn long_text(wraps: &[fn(u32) -> Node]) -> (Build, u32) {
    let mut arena = leaves(2);
    let mut root = 0;
    for _ in 0..14 {
        root = arena.put(Node::Union(vec![root, root]));
    }
    for wrap in wraps {
        root = arena.put(wrap(root));
    }
    (arena, root)
}

/// `intern` at the limits: 64 and 65 members, the 4,096th node and the next, the last word and one
/// more, the last name and the next, and each bit of a field word that must be zero.
fn nodes() -> Vec<Case> {
    let list = |head: u32, members: usize| [vec![head + members as u32], vec![0; members]].concat();
    let small = leaves(4_096).host(200, 20);
    let mut cases: Vec<Case> = vec![
        list(0x7000_0000, MEMBERS),
        list(0x7000_0000, MEMBERS + 1),
        list(0x8000_0000, MEMBERS),
        list(0x8000_0000, MEMBERS + 1),
        Node::Named(255, 0).encode(),
        Node::Named(256, 0).encode(),
        Node::Named(4_095, 0).encode(),
        Node::Named(4_096, 0).encode(),
        vec![],
    ]
    .into_iter()
    .chain((12..15).map(|bit| vec![0x9000_0001, 1 << bit]))
    .map(|node| Case::Intern(small.clone(), node))
    .collect();
    let without = Host {
        table: numbered(4_095).table(),
        ..small
    };
    cases.push(Case::Intern(without, Node::Named(4_095, 0).encode()));

    let (full, last) = chain(Node::List);
    let mut room = leaves(2);
    for node in &full.nodes[..NODES - 1] {
        room.put(node.clone());
    }
    for arena in [&full, &room] {
        let host = arena.host(WORDS, NODES);
        let neg = Node::Neg(last - 1).encode();
        cases.push(Case::Intern(host.clone(), neg));
        cases.push(Case::Intern(host, full.nodes[NODES - 2].encode()));
    }
    for left in [2, 1] {
        let host = filled(WORDS - left).host(WORDS, NODES);
        cases.push(Case::Intern(host, Node::List(0).encode()));
    }
    cases
}

/// An arena of so many words.
pub fn filled(words: usize) -> Build {
    let mut arena = leaves(2);
    let mut root = 0;
    while arena.words + 14 <= words {
        root = arena.put(Node::Union(vec![root; 10]));
    }
    let rest = words - arena.words - 1;
    arena.put(Node::Union(vec![root; rest]));
    arena
}

/// The example, sheets of 4,096 and 4,097 nodes, the types, those with names in quotes, the limits of names and bytes, and field
/// words with a bit that must be zero.
fn sheets(layout: Layout, call: fn(Vec<u8>) -> Case) -> Vec<Case> {
    let sheet = |opening: &[u8], words: Vec<u32>| {
        let words = words.into_iter().flat_map(u32::to_be_bytes);
        opening.iter().copied().chain(words).collect()
    };
    let example = vec![0x3000_0001, 0, 0x2000_0001, 2, 0x7000_0002, 0, 1];
    let chain = |count: u32| {
        let lists = (0..count - 1).flat_map(|n| [0x4000_0001, n]);
        [0x2000_0001, 2].into_iter().chain(lists).collect()
    };
    let mut sheets = vec![
        sheet(&[0, 0, 0, 3, 0, 2], example),
        sheet(&[0, 0, 0x10, 0x00, 0, 9], chain(4096)),
        sheet(&[0, 0, 0x10, 0x01, 0, 9], chain(4097)),
    ];
    let all = [types(), named(), limits(layout)].concat();
    let allowed = |arena: &Build| arena.names.len() <= layout.names + 1;
    let all = all.into_iter().filter(|(arena, _)| allowed(arena));
    sheets.extend(all.map(|(arena, root)| arena.sheet(layout, root)));
    // The six opening bytes say that there is a name too many, or one of them is missing.
    let opening = numbered(layout.names + 1).sheet(layout, 0);
    sheets.extend([5, 6].map(|end| opening[..end].to_vec()));
    // Each bit of a field word that must be zero, in an alias and in a set.
    for bit in CHILD..layout.lowest {
        for head in [0x9000_0001, 0x6000_0001] {
            let words = vec![0x3000_0001, 0, head, 1 << bit];
            sheets.push(sheet(b"\0\x01\0\x02\0\x01\x01x", words));
        }
    }
    sheets.into_iter().map(call).collect()
}

/// All 4,096 nodes, and a root for which `simplify` needs one more.
fn without_room() -> (Build, u32) {
    let nodes = vec![Node::Union(vec![0, 4]), Node::List(7)];
    let (mut arena, root) = over(leaves(2), nodes);
    while arena.nodes.len() < NODES {
        arena.var(arena.nodes.len() as u32);
    }
    (arena, root)
}

/// Types at the limits of a sheet's names, nodes and bytes, and past them.
fn limits(layout: Layout) -> Vec<(Build, u32)> {
    let mut types = vec![
        last_names(numbered(layout.names)),
        over(leaves(layout.names + 1), vec![Node::Named(1, 0)]),
        without_room(),
    ];
    // A table of two bytes and 16,382 words make 65,536 bytes.
    for words in [WORDS - 2, WORDS - 1] {
        let mut arena = filled(words);
        arena.names = vec![b"x".to_vec()];
        types.push((arena, 0));
    }
    // So do one of 65,526 bytes and a single word.
    for bytes in [65_526, 65_527, 65_536, 65_537] {
        types.push(over(sized(bytes), vec![Node::Bottom]));
    }
    types
}
