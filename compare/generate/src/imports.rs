//! Pairs of arenas between which a type is imported: each with a table of its own, the target with nothing, parts of the type or
//! all of it, and with room for all, for a part or for nothing.

use std::collections::BTreeSet;

use reference::calls;
use reference::case::{Case, Host};
use reference::layout::NEW;
use reference::table::{LENGTH, TABLE};
use reference::{NODES, WORDS};

use crate::build::{self, names, names_by, printable, Build};
use crate::cases::{host, root};
use crate::damage;
use crate::random::Random;
use crate::shapes::{leaves, shape, Shape};
use crate::spelled;
use crate::twin::{change, renamed};

pub fn import(random: &mut Random) -> Case {
    let Shape { arena, root: at } = source(random);
    let target = target(&arena, at, random);
    let mut from = host(&arena, random);
    let (words, starts) = room(&from, at, &target, random);
    let mut to = target.host(words, starts);
    // Faults of one side, or of both, which compete.
    let (first, second) = match random.below(100) {
        0..6 => (true, false),
        6..12 => (false, true),
        12..15 => (true, true),
        _ => (false, false),
    };
    if first {
        damage::host(&mut from, random);
    }
    if second {
        damage::host(&mut to, random);
    }
    Case::Import(from, root(&arena, at, random), to)
}

/// A type with many names, or any.
fn source(random: &mut Random) -> Shape {
    match random.below(10) {
        0..4 => named(random),
        4 => spelled::shape(random),
        _ => shape(random),
    }
}

/// Sets and aliases over one another, under few names.
fn named(random: &mut Random) -> Shape {
    let count = random.within(1..=12);
    let mut arena = Build::named(names(random, count));
    leaves(&mut arena, random);
    for _ in 0..random.within(2..=16) {
        let kind = random.pick(&[6, 6, 6, 9, 9, 4, 5, 7, 8, 10]);
        let node = arena.node(random, kind);
        arena.put(node);
    }
    let root = match random.percent(30) {
        true => arena.any(random),
        false => arena.nodes.len() as u32 - 1,
    };
    Shape { arena, root }
}

/// The names of the target's table, by those of the source's: the same, more, only the ones that the type has (and so without
/// those of other nodes), all of them but one, some, none, or one that is like another but for its end.
fn table(arena: &Build, at: u32, random: &mut Random) -> Vec<Vec<u8>> {
    let own = calls::reached(&arena.nodes, at).into_iter();
    let own = own.flat_map(|number| arena.nodes[number as usize].names());
    let own: BTreeSet<Vec<u8>> = own.map(|n| arena.names[usize::from(n)].clone()).collect();
    let all: BTreeSet<Vec<u8>> = arena.names.iter().cloned().collect();
    let mut table = match random.below(20) {
        0..7 => all.clone(),
        7..12 => own.clone(),
        12 | 13 => all.into_iter().filter(|_| random.percent(60)).collect(),
        14 => BTreeSet::new(),
        _ => one_lacking(own, all, random),
    };
    if random.percent(60) {
        table.extend(others(arena.names.len(), random));
    }
    fitting(table)
}

/// All names but one of the type's, in whose place may be a front of it or one that begins with it.
fn one_lacking(
    own: BTreeSet<Vec<u8>>,
    mut all: BTreeSet<Vec<u8>>,
    random: &mut Random,
) -> BTreeSet<Vec<u8>> {
    let own: Vec<Vec<u8>> = own.into_iter().collect();
    if own.is_empty() {
        return all;
    }
    let mut name = random.pick(&own);
    all.remove(&name);
    match random.below(3) {
        0 if name.len() > 1 => drop(name.pop()),
        1 if name.len() < LENGTH => name.push(random.pick(b" a~")),
        _ => return all,
    }
    // What stands in its place may have been there.
    all.insert(name);
    all
}

/// Names that a table has besides: mostly few, so that numbers shift.
fn others(beside: usize, random: &mut Random) -> Vec<Vec<u8>> {
    let most = TABLE / (1 + LENGTH) - 1;
    let count = match beside < most && random.percent(3) {
        true => most - beside,
        false => random.within(1..=6),
    };
    names_by(random, count, |random| printable(random, 1..=6))
}

/// As many of the names, from the first on, as a table may have.
fn fitting(names: BTreeSet<Vec<u8>>) -> Vec<Vec<u8>> {
    let mut names: Vec<Vec<u8>> = names.into_iter().collect();
    names.truncate(NEW.names);
    while build::table(&names).len() > TABLE {
        names.pop();
    }
    names
}

/// What the target holds before: nothing, other nodes, parts of the type, all of it, all nodes of the source, or the type with
/// one node changed; now and then it is filled up.
fn target(arena: &Build, at: u32, random: &mut Random) -> Build {
    let mut target = Build::named(table(arena, at, random));
    if random.percent(70) {
        let count = random.pick(&[0, 1, 3, 8]);
        put_any(&mut target, count, random);
    }
    match random.below(20) {
        0..7 => {}
        7..13 => {
            for _ in 0..random.within(1..=3) {
                let part = random.below(at as usize + 1) as u32;
                copy(arena, part, &mut target, None, random);
            }
        }
        13..17 => copy(arena, at, &mut target, None, random),
        17 => {
            let last = arena.nodes.len() as u32 - 1;
            copy(arena, last, &mut target, None, random);
        }
        _ => {
            let other = random.below(at as usize + 1) as u32;
            copy(arena, at, &mut target, Some(other), random);
        }
    }
    let more = random.within(0..=3);
    put_any(&mut target, more, random);
    if random.percent(2) {
        fill(&mut target, random);
    }
    target
}

fn put_any(target: &mut Build, count: usize, random: &mut Random) {
    for _ in 0..count {
        let kind = random.below(11);
        let node = target.node(random, kind);
        target.put(node);
    }
}

/// Up to all nodes that may be stored, or up to one or two fewer.
fn fill(target: &mut Build, random: &mut Random) {
    let nodes = NODES - random.below(3);
    let mut index = 0;
    while target.nodes.len() < nodes && target.words + 2 <= WORDS {
        target.var(index);
        index += 1;
    }
}

/// The nodes below a root, put in the order of their numbers, which isn't that of an import; one that has a name that the table
/// lacks is left out with all that stand on it, and so is what doesn't fit. One node may be another.
fn copy(arena: &Build, at: u32, target: &mut Build, other: Option<u32>, random: &mut Random) {
    let find = |name: &Vec<u8>| target.names.binary_search(name).ok();
    let places: Vec<Option<usize>> = arena.names.iter().map(find).collect();
    let is_here = |&name: &u16| places[usize::from(name)].is_some();
    let known: Vec<u16> = places.iter().map(|p| p.unwrap_or(0) as u16).collect();
    let mut numbers = vec![None; arena.nodes.len()];
    for number in calls::reached(&arena.nodes, at) {
        let node = &arena.nodes[number as usize];
        let children = node.children().into_iter().map(|c| numbers[c as usize]);
        let Some(children) = children.collect::<Option<Vec<u32>>>() else {
            continue;
        };
        if !node.names().iter().all(is_here) {
            continue;
        }
        let mut node = renamed(node.with_children(children), &known);
        if other == Some(number) {
            change(&mut node, random);
        }
        if target.nodes.len() < NODES && target.words + node.size() <= WORDS {
            numbers[number as usize] = Some(target.put(node));
        }
    }
}

/// How much is lent to the target: all; what the import needs to the word; a word or a start less; enough for a part; no more than
/// it fills already.
fn room(source: &Host, at: u32, target: &Build, random: &mut Random) -> (usize, usize) {
    let own = (target.words, target.nodes.len());
    let after = calls::import_from_arena(source, at, &target.host(WORDS, NODES));
    let (words, starts) = match after {
        Ok((_, after)) => (after.used as usize, after.nodes as usize),
        Err(_) => (own.0 + random.below(12), own.1 + random.below(4)),
    };
    let (words, starts) = match random.below(12) {
        0..4 => (WORDS, NODES),
        4..7 => (words, starts),
        7 => (words.saturating_sub(1), starts),
        8 => (words, starts.saturating_sub(1)),
        9 | 10 => (random.within(own.0..=words), random.within(own.1..=starts)),
        _ => own,
    };
    (words.clamp(own.0, WORDS), starts.clamp(own.1, NODES))
}

#[cfg(test)]
mod tests {
    use std::collections::BTreeMap;

    use reference::calls::Changed;
    use reference::memory::Memory;
    use reference::Reply;

    use super::*;

    type Kinds = Vec<(&'static str, bool)>;

    /// What a case is, by the reference.
    fn kinds(source: &Host, root: u32, target: &Host) -> Kinds {
        let (Ok((names, nodes)), Ok((others, _))) = (calls::read(source), calls::read(target))
        else {
            let faulty = [source, target].map(|host| calls::read(host).is_err());
            return vec![
                ("a faulty source", faulty == [true, false]),
                ("a faulty target", faulty == [false, true]),
                ("both faulty", faulty == [true, true]),
            ];
        };
        let after = calls::import_from_arena(source, root, target);
        let mut kinds = of_tables(&names, &others, &after);
        kinds.extend(of_target(&target.memory, &after));
        kinds.push(("a large source", nodes.len() > 300));
        kinds
    }

    /// How the two tables stand.
    fn of_tables(names: &[String], others: &[String], after: &Reply<Changed>) -> Kinds {
        let lacks = names.iter().any(|name| !others.contains(name));
        let shares = names.iter().any(|name| others.contains(name));
        let moved = |(number, name): (usize, &String)| others.get(number) != Some(name);
        let shifted = names.iter().enumerate().any(moved);
        let some = !names.is_empty() && !others.is_empty();
        vec![
            ("equal tables", some && names == others),
            ("shifted numbers", shifted && !lacks),
            ("disjoint tables", some && !shares),
            ("lacking elsewhere", lacks && after.is_ok()),
            ("12", *after == Err(12)),
            ("no root", *after == Err(6)),
            ("no root, and lacking names", *after == Err(6) && lacks),
        ]
    }

    /// What the target holds and has room for, and what is added.
    fn of_target(memory: &Memory, after: &Reply<Changed>) -> Kinds {
        let no_word = memory.used as usize == memory.words.len();
        let no_start = memory.nodes as usize == memory.starts.len();
        let (adds, nothing, fills) = match after {
            Ok((_, after)) => {
                let words = after.used as usize == after.words.len();
                let starts = after.nodes as usize == after.starts.len();
                let adds = after.nodes > memory.nodes;
                (adds, !adds, adds && words && starts)
            }
            Err(_) => (false, false, false),
        };
        vec![
            (
                "12 without room",
                *after == Err(12) && (no_word || no_start),
            ),
            ("into no node", adds && memory.nodes == 0),
            ("into others", adds && memory.nodes > 0),
            ("all there", nothing),
            ("all there, full", nothing && no_word && no_start),
            ("filled to the word", fills),
            ("7", *after == Err(7)),
            (
                "7 with some room",
                *after == Err(7) && !no_word && !no_start,
            ),
        ]
    }

    #[test]
    fn every_kind_is_met() {
        let mut met = BTreeMap::new();
        for number in 0..1_000 {
            let case = import(&mut Random::new(1, 26, number));
            let Case::Import(source, root, target) = case else {
                panic!("another operation");
            };
            for (kind, is_so) in kinds(&source, root, &target) {
                *met.entry(kind).or_insert(0) += usize::from(is_so);
            }
        }
        assert!(met.len() == 19 && met.values().all(|&n| n > 0), "{met:?}");
    }
}
