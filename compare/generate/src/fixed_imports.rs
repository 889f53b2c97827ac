//! Imports of the worked types, at each limit, and with all faults at once.

use reference::calls;
use reference::case::{Case, Host};
use reference::layout::NEW;
use reference::node::{Field, Node};
use reference::{NODES, WORDS};

use crate::build::Build;
use crate::fixed::{chain, filled, fullest, last_names, leaves, numbered, over, parts, types};

pub fn cases() -> Vec<Case> {
    let mut cases = of_types();
    cases.extend(from_left());
    cases.extend(by_room());
    cases.extend(by_faults());
    cases.extend(of_parts());
    cases.extend(of_many_names());
    cases.extend(unreachable_names());
    cases.extend(into_full());
    cases
}

/// No node under these names, with all memory lent.
fn empty(names: &[Vec<u8>]) -> Host {
    Build::named(names.to_vec()).host(WORDS, NODES)
}

pub fn exact(arena: &Build) -> Host {
    arena.host(arena.words, arena.nodes.len())
}

/// The same lent memory cut to so many words and starts.
fn cut(mut host: Host, words: usize, starts: usize) -> Host {
    host.memory.words.truncate(words);
    host.memory.starts.truncate(starts);
    host
}

/// A target without nodes, with all memory lent; with what the import leaves, to the word; with a word less, and with a start less.
fn by_limits(source: &Host, root: u32, target: Host) -> Vec<Case> {
    let import = |target| Case::Import(source.clone(), root, target);
    let mut cases = vec![import(target.clone())];
    if let Ok((_, after)) = calls::import_from_arena(source, root, &target) {
        let (words, starts) = (after.used as usize, after.nodes as usize);
        let sizes = [(words, starts), (words - 1, starts), (words, starts - 1)];
        cases.extend(sizes.map(|(words, starts)| import(cut(target.clone(), words, starts))));
    }
    cases
}

/// Every type into no node, into its own arena, and, with all memory lent and with none, into no node under names of which the first
/// is new, the last lacks, or none is left.
fn of_types() -> Vec<Case> {
    let mut cases = Vec::new();
    for (arena, root) in types() {
        let source = exact(&arena);
        let import = |target| Case::Import(source.clone(), root, target);
        cases.extend(by_limits(&source, root, empty(&arena.names)));
        cases.push(import(source.clone()));
        cases.push(import(arena.host(WORDS, NODES)));
        let shifted = [vec![b"!".to_vec()], arena.names.clone()].concat();
        let lacking = &arena.names[..arena.names.len() - 1];
        for target in [&shifted, lacking, &[]].map(empty) {
            cases.push(import(target.clone()));
            cases.push(import(cut(target, 0, 0)));
        }
    }
    cases
}

/// The set of these fields, with or without a dynamic part.
fn set(fields: &[(u16, u32)], dynamic: Option<u32>) -> Node {
    let field = |&(name, child)| Field {
        optional: name % 2 == 1,
        name,
        child,
    };
    Node::AttrSet(fields.iter().map(field).collect(), dynamic, false)
}

/// Types whose children aren't in the order of their numbers: what comes first gets the lower number.
fn from_left() -> Vec<Case> {
    let nodes = [
        Node::Lambda(1, 0),
        Node::Union(vec![2, 1, 0]),
        Node::Intersection(vec![4, 0, 4, 3, 0]),
        set(&[(0, 1), (1, 0)], Some(4)),
        Node::Lambda(8, 7),
        set(&[(0, 11), (1, 9)], Some(10)),
        Node::Union(vec![12, 7, 11]),
    ];
    let (arena, last) = over(leaves(2), nodes.to_vec());
    let mut second = Build::named(arena.names.clone());
    second.var(1);
    second.put(Node::Primitive(2));
    second.put(Node::Lambda(0, 1));
    let source = exact(&arena);
    let targets = [empty(&arena.names), second.host(WORDS, NODES)];
    let mut cases = Vec::new();
    for target in targets {
        // One past the last, too.
        let roots = 0..=last + 1;
        cases.extend(roots.map(|root| Case::Import(source.clone(), root, target.clone())));
    }
    cases
}

/// A type with every kind of name, root 6, under names of which the target has others beside.
fn with_names() -> (Build, Vec<Vec<u8>>) {
    let names = ["b", "d", "dd"].map(Vec::from).to_vec();
    let mut arena = Build::named(names);
    arena.var(0);
    arena.put(Node::Primitive(2));
    arena.put(Node::Named(1, 0));
    arena.put(set(&[(0, 1), (2, 2)], Some(0)));
    arena.put(Node::Lambda(3, 2));
    arena.put(set(&[(1, 4)], None));
    arena.put(Node::Union(vec![5, 3, 5, 1]));
    let more = ["a", "b", "c", "d", "da", "dd", "ddd"].map(Vec::from);
    (arena, more.to_vec())
}

/// With every room, in words and in starts, up to what the type needs, beside two nodes of which one is the type's.
fn by_room() -> Vec<Case> {
    let (arena, names) = with_names();
    let source = exact(&arena);
    let mut target = Build::named(names);
    target.put(Node::Primitive(2));
    target.put(Node::Named(6, 0));
    let mut cases = Vec::new();
    for words in 0..=arena.words {
        for starts in 0..=arena.nodes.len() {
            let target = target.host(target.words + words, target.nodes.len() + starts);
            cases.push(Case::Import(source.clone(), 6, target));
        }
    }
    cases
}

/// All faults at once, and each without some of the others: the source's table and memory, the target's, a root that isn't there,
/// a name that lacks, and no room.
fn by_faults() -> Vec<Case> {
    let (arena, names) = with_names();
    let case = |faults: u32| {
        let is = |fault: u32| faults >> fault & 1 == 1;
        let mut source = exact(&arena);
        let kept = if is(5) { &names[..5] } else { &names };
        let mut target = empty(kept);
        for (fault, host) in [(0, &mut source), (2, &mut target)] {
            if is(fault) {
                host.table.push(0);
            }
            if is(fault + 1) {
                host.memory.nodes += 1;
            }
        }
        let room = if is(6) { 4 } else { 100 };
        Case::Import(source, if is(4) { 7 } else { 6 }, cut(target, room, room))
    };
    (0..1 << 7).map(case).collect()
}

/// A set with every name of a part of 24 names, into a target whose table is another part.
fn of_parts() -> Vec<Case> {
    let parts = parts();
    let mut cases = Vec::new();
    for names in &parts {
        let mut arena = Build::named(names.clone());
        let int = arena.put(Node::Primitive(2));
        let fields: Vec<(u16, u32)> = (0..names.len() as u16).map(|n| (n, int)).collect();
        let root = arena.put(set(&fields, None));
        let into = |other: &Vec<Vec<u8>>| Case::Import(exact(&arena), root, empty(other));
        cases.extend(parts.iter().map(into));
    }
    cases
}

/// 4,095 aliases one on another, each of another name.
fn all_names() -> (Build, u32) {
    let mut arena = numbered(NEW.names);
    let mut root = arena.var(0);
    for name in 0..NEW.names as u16 - 1 {
        root = arena.put(Node::Named(name, root));
    }
    (arena, root)
}

/// Full tables: nearly all names used and one lacking at either end or between, the last 64 of them, and other names.
fn of_many_names() -> Vec<Case> {
    let (arena, root) = all_names();
    let names = &arena.names;
    let all = names.len();
    let mut tables = vec![names.clone(), names[..all - 1].to_vec()];
    for lacking in [0, all / 2, all - 2] {
        let mut fewer = names.clone();
        fewer.remove(lacking);
        tables.push(fewer);
    }
    tables.push([vec![b"!".to_vec()], names[..all - 1].to_vec()].concat());
    tables.push([vec![b"!".to_vec()], names.clone()].concat());
    tables.push(numbered(2 * all).names[all..].to_vec());
    let source = exact(&arena);
    let into = |names: Vec<Vec<u8>>| Case::Import(source.clone(), root, empty(&names));
    let mut cases: Vec<Case> = tables.into_iter().map(into).collect();
    for names in [fullest(15), fullest(16), numbered(all)] {
        let (arena, root) = last_names(names);
        let into = |names: Vec<Vec<u8>>| Case::Import(exact(&arena), root, empty(&names));
        cases.push(into(arena.names.clone()));
        cases.push(into(numbered(all).names));
    }
    cases
}

/// A name that lacks at a node of the type is 12, at another node nothing.
fn unreachable_names() -> Vec<Case> {
    let names = ["p", "q"].map(Vec::from);
    let mut arena = Build::named(names.to_vec());
    arena.var(0);
    arena.put(Node::Named(1, 0));
    arena.put(Node::Named(0, 0));
    arena.put(set(&[(0, 2)], Some(2)));
    arena.put(set(&[(0, 2), (1, 2)], None));
    arena.put(set(&[(0, 3)], Some(1)));
    let mut cases = Vec::new();
    for root in 0..arena.nodes.len() as u32 {
        for kept in [&names[..], &names[..1], &names[1..], &[]] {
            cases.push(Case::Import(exact(&arena), root, empty(kept)));
        }
    }
    cases
}

/// Full targets, ones with room for one node or for one word less than that, and more lent than may be.
fn into_full() -> Vec<Case> {
    let (full, last) = chain(Node::List);
    let mut room = leaves(2);
    for node in &full.nodes[..NODES - 1] {
        room.put(node.clone());
    }
    let nodes = vec![Node::Neg(0), Node::Neg(1), Node::Lambda(7, 8)];
    let (few, root) = over(leaves(2), nodes);
    let mut cases = Vec::new();
    for target in [&full, &room] {
        let target = target.host(WORDS, NODES);
        cases.push(Case::Import(exact(&full), last, target.clone()));
        cases.push(Case::Import(exact(&full), last - 1, target.clone()));
        cases.extend([0, 7, root].map(|root| Case::Import(exact(&few), root, target.clone())));
    }
    for left in [2, 1] {
        let target = filled(WORDS - left).host(WORDS, NODES);
        cases.extend([0, 7, root].map(|root| Case::Import(exact(&few), root, target.clone())));
    }
    let source = few.host(WORDS, NODES);
    for (words, starts) in [(WORDS + 1, NODES), (WORDS, NODES + 1)] {
        let mut over = source.clone();
        over.memory.words.resize(words, 0);
        over.memory.starts.resize(starts, 0);
        cases.push(Case::Import(source.clone(), root, over.clone()));
        cases.push(Case::Import(over, root, source.clone()));
    }
    cases
}
