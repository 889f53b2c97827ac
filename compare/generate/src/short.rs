//! All short cases of each operation.

use reference::case::{Case, Host};
use reference::layout::{Layout, NEW, OLD};
use reference::node::{Field, Node};

use crate::build::{table, Build};

pub fn cases(op: u8) -> Vec<Case> {
    match op {
        1 => indexes(),
        2 => nodes(),
        3 => orders(),
        4 => types(Case::Simplify),
        5 => texts(Case::Display),
        6 => lists(&[0, 1, 2, 31, 32, 126, 127], 4)
            .map(Case::Table)
            .collect(),
        7 => names(),
        8 => sheets(NEW, Case::Sheet),
        9..=17 | 20 => types(|host, root| Case::OnType(op, host, root)),
        18 => types(|host, root| Case::Compact(host.clone(), root, host.memory)),
        19 => equals(),
        21 => types(|host, root| Case::WriteSheet(host, root, 65_536)),
        22 => lists(&[0, 1, 2, 31, 32, 126, 127], 4)
            .flat_map(|table| [0, 1, 2].map(|number| Case::NameAt(table.clone(), number)))
            .collect(),
        23 => texts(Case::DisplayNix),
        24 => sheets(OLD, Case::Convert),
        25 => lookups(),
        26 => imports(),
        27 => fixes(),
        _ => panic!("no operation {op}"),
    }
}

/// Three letters' worth of names, and the last ones.
fn indexes() -> Vec<Case> {
    let ends = (0..=26 * 104).chain(u32::MAX - 60..=u32::MAX);
    ends.map(Case::TyvarName).collect()
}

/// All lists of at most so many items.
fn lists<T: Clone>(items: &[T], most: usize) -> impl Iterator<Item = Vec<T>> {
    let mut all = vec![vec![]];
    let mut longest = 0..1;
    for _ in 0..most {
        let end = all.len();
        for at in longest {
            for item in items {
                let longer = [all[at].clone(), vec![item.clone()]].concat();
                all.push(longer);
            }
        }
        longest = end..all.len();
    }
    all.into_iter()
}

/// Every head of every kind over a few bodies, offered to an arena of two nodes and one name.
fn nodes() -> Vec<Case> {
    let mut arena = Build::named(vec![b"x".to_vec()]);
    arena.var(0);
    arena.put(Node::Top);
    let host = arena.host(8, 3);
    let bodies: Vec<_> = lists(&[0, 2, 1 << 12, 1 << 14, 1 << 15, 1 << 31], 2).collect();
    let mut cases = vec![Case::Intern(host.clone(), vec![])];
    for kind_and_flags in 0..1 << 6 {
        for zero_and_count in [0, 1, 2, 3, 1 << 16 | 1, 1 << 25 | 1] {
            for body in &bodies {
                let head = kind_and_flags << 26 | zero_and_count;
                let node = [vec![head], body.clone()].concat();
                cases.push(Case::Intern(host.clone(), node));
            }
        }
    }
    cases
}

/// All nodes with up to two children over these; sets with one name.
fn composites(nodes: u32, with_sets: bool) -> Vec<Node> {
    let mut all = Vec::new();
    for first in 0..nodes {
        all.push(Node::List(first));
        all.push(Node::Neg(first));
        all.push(Node::Union(vec![first]));
        all.push(Node::Intersection(vec![first]));
        for second in 0..nodes {
            all.push(Node::Lambda(first, second));
            all.push(Node::Union(vec![first, second]));
            all.push(Node::Intersection(vec![first, second]));
        }
    }
    if with_sets {
        all.push(Node::Named(0, 0));
        all.push(Node::Named(1, 0));
        all.extend(sets([0, 0], &[None, Some(0), Some(1)]));
    }
    all
}

/// All sets of up to two names, each with its child, with these dynamic parts.
pub fn sets(children: [u32; 2], dynamics: &[Option<u32>]) -> Vec<Node> {
    let field = |name: u16, optional| Field {
        optional,
        name,
        child: children[usize::from(name)],
    };
    let mut all = Vec::new();
    for fields in 0..9 {
        let (first, second) = (fields % 3, fields / 3);
        let present = [(0, first), (1, second)]
            .into_iter()
            .filter(|(_, how)| *how > 0);
        let fields: Vec<Field> = present.map(|(name, how)| field(name, how == 2)).collect();
        for dynamic in dynamics {
            all.push(Node::AttrSet(fields.clone(), *dynamic, false));
            all.push(Node::AttrSet(fields.clone(), *dynamic, true));
        }
    }
    all
}

/// An arena that holds many small nodes.
fn small_nodes() -> Build {
    let mut arena = Build::named(vec![b"x".to_vec(), b"y".to_vec()]);
    for leaf in [Node::TyVar(1), Node::TyVar(0), Node::Top] {
        arena.put(leaf);
    }
    for leaf in [Node::Bottom, Node::Primitive(0), Node::Primitive(7)] {
        arena.put(leaf);
    }
    for node in composites(2, true) {
        arena.put(node);
    }
    arena
}

/// All pairs of its nodes.
fn orders() -> Vec<Case> {
    let arena = small_nodes();
    let host = arena.host(arena.words, arena.nodes.len());
    // One past the last, too.
    let all = 0..=arena.nodes.len() as u32;
    let pairs = all
        .clone()
        .flat_map(|left| all.clone().map(move |right| (left, right)));
    pairs
        .map(|(left, right)| Case::Order(host.clone(), left, right))
        .collect()
}

/// All types of two nodes over two variables, `never`, `any` and a primitive.
fn types(call: impl Fn(Host, u32) -> Case) -> Vec<Case> {
    let mut leaves = Build::default();
    leaves.var(0);
    leaves.var(1);
    for leaf in [Node::Bottom, Node::Top, Node::Primitive(2)] {
        leaves.put(leaf);
    }
    let mut cases = Vec::new();
    for first in composites(5, false) {
        let mut inner = leaves.clone();
        inner.put(first);
        for second in composites(6, false) {
            let mut arena = inner.clone();
            let root = arena.put(second);
            cases.push(call(arena.host(64, 32), root));
        }
    }
    cases
}

/// The same types, and an alias of each short name: all of two bytes, those of up to four over bytes that have a meaning.
fn texts(call: fn(Host, u32, u32) -> Case) -> Vec<Case> {
    let printable: Vec<u8> = (32..=126).collect();
    let names = lists(&printable, 2).chain(lists(b"\"\\${ a-", 4));
    let alias = |name| {
        let mut arena = Build::named(vec![name]);
        let var = arena.var(0);
        let root = arena.put(Node::Named(0, var));
        call(arena.host(8, 4), root, 65_536)
    };
    let mut cases = types(|host, root| call(host, root, 65_536));
    cases.extend(names.filter(|name| !name.is_empty()).map(alias));
    cases
}

/// All pairs of small nodes, the same arena on both sides.
fn equals() -> Vec<Case> {
    let beside = |case| match case {
        Case::Order(host, left, right) => Case::Equal((host.clone(), left), (host, right)),
        other => other,
    };
    orders().into_iter().map(beside).collect()
}

/// The types of two nodes, into a target that has some of their leaves and room for three nodes; and small nodes, into targets
/// whose tables are all parts of five names.
fn imports() -> Vec<Case> {
    let mut some = Build::default();
    some.put(Node::Top);
    some.var(1);
    let target = some.host(some.words + 7, 5);
    let mut cases = types(|host, root| Case::Import(host, root, target.clone()));
    let arena = small_nodes();
    let source = arena.host(arena.words, arena.nodes.len());
    let names = ["w", "x", "xx", "y", "z"].map(Vec::from);
    for chosen in 0..1 << names.len() {
        let is_chosen = |at: &usize| chosen >> at & 1 == 1;
        let some = (0..names.len()).filter(is_chosen);
        let mut target = Build::named(some.map(|at| names[at].clone()).collect());
        target.put(Node::Top);
        let target = target.host(12, 6);
        // One past the last, too.
        let all = 0..=arena.nodes.len() as u32;
        cases.extend(all.map(|root| Case::Import(source.clone(), root, target.clone())));
    }
    cases
}

/// All fixes of up to four words out of ten, beside any, a list and a set.
fn fixes() -> Vec<Case> {
    let mut arena = Build::named(vec![b"x".to_vec(), b"y".to_vec()]);
    let any = arena.put(Node::Top);
    let int = arena.put(Node::Primitive(2));
    let list = arena.put(Node::List(int));
    let field = Field {
        optional: false,
        name: 0,
        child: int,
    };
    let set = arena.put(Node::AttrSet(vec![field], Some(list), false));
    let host = arena.host(arena.words, arena.nodes.len());
    // Children and fields, one of them of a name that isn't there; then an int, lists and sets.
    let bodies = [0, 1, 1 << 15, 2 << 15].into_iter();
    let heads = [(2, 0), (6, 0), (6, 1), (6, 2), (7, 1), (7, 2)];
    let heads = heads.map(|(kind, count)| kind << 28 | count);
    let words: Vec<u32> = bodies.chain(heads).collect();
    let beside =
        |fix: Vec<u32>| [any, list, set].map(|root| Case::Fits(host.clone(), root, fix.clone()));
    lists(&words, 4).flat_map(beside).collect()
}

fn names() -> Vec<Case> {
    let all: Vec<Vec<u8>> = lists(b" a~", 2).collect();
    let pairs = all
        .iter()
        .flat_map(|left| all.iter().map(move |right| (left, right)));
    pairs
        .map(|(left, right)| Case::Names(left.clone(), right.clone()))
        .collect()
}

/// Tables of up to four bytes, and all tables of names of one and two bytes of space, `a` and `~`, with short texts.
fn lookups() -> Vec<Case> {
    let sought = |table: &Vec<u8>, texts: &[Vec<u8>]| -> Vec<Case> {
        let case = |text: &Vec<u8>| Case::FindName(table.clone(), text.clone());
        texts.iter().map(case).collect()
    };
    let bytes: Vec<Vec<u8>> = lists(&[31, 32, 126, 127], 1).collect();
    let any = lists(&[0, 1, 2, 31, 32, 126, 127], 4);
    let mut cases: Vec<Case> = any.flat_map(|table| sought(&table, &bytes)).collect();
    let texts: Vec<Vec<u8>> = lists(b" a~", 2).collect();
    let mut names = texts[1..].to_vec();
    names.sort();
    for chosen in 0..1 << names.len() {
        let is_chosen = |at: &usize| chosen >> at & 1 == 1;
        let some = (0..names.len()).filter(is_chosen);
        let some: Vec<Vec<u8>> = some.map(|at| names[at].clone()).collect();
        cases.extend(sought(&table(&some), &texts));
    }
    cases
}

/// Two good sheets of a layout, every front of them, and every copy with one bit turned.
fn sheets(layout: Layout, call: fn(Vec<u8>) -> Case) -> Vec<Case> {
    let second = 1 << layout.lowest;
    let plain = [0x3000_0001, 0, 0x2000_0001, 2, 0x7000_0002, 0, 1];
    let named = [
        0x3000_0001,
        0,
        0x9000_0001,
        second,
        0x6c00_0003,
        0x8000_0001,
        second,
        1,
        0xa000_0001,
        2,
    ];
    let sheet = |opening: &[u8], words: &[u32]| {
        let words = words.iter().flat_map(|w| w.to_be_bytes());
        opening.iter().copied().chain(words).collect::<Vec<u8>>()
    };
    let good = [
        sheet(&[0, 0, 0, 3, 0, 2], &plain),
        sheet(b"\0\x02\0\x04\0\x03\x01p\x02q ", &named),
    ];
    let mut cases = Vec::new();
    for sheet in good {
        cases.extend((0..=sheet.len()).map(|end| call(sheet[..end].to_vec())));
        for bit in 0..8 * sheet.len() {
            let mut turned = sheet.clone();
            turned[bit / 8] ^= 1 << (bit % 8);
            cases.push(call(turned));
        }
    }
    cases
}
