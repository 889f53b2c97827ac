//! What each call open to a host replies. Numbers 1 and 2 come first, then 6 or 3, 4, 5.

use std::cmp::Ordering;
use std::collections::BTreeSet;

use lang_ty::{TyRef, TypeArena};

use crate::case::Host;
use crate::fix;
use crate::layout::NEW;
use crate::limited::Lent;
use crate::memory::Memory;
use crate::node::{decode, Node};
use crate::order;
use crate::rust::Rust;
use crate::set_ops::normalize_set_ops;
use crate::sheet::{self, Sheet};
use crate::simplify::{self, first_refusal};
use crate::{table, Reply, NODES, WORDS};

/// The numbers of a reply that changes memory, and that memory afterwards.
pub type Changed = (Vec<u32>, Memory);

/// The names and nodes that a host lends; or 1, then 2.
pub fn read(host: &Host) -> Reply<(Vec<String>, Vec<Node>)> {
    let names = table::check(&host.table)?;
    let nodes = host.memory.arena(names.len())?;
    Ok((names, nodes))
}

fn below(root: u32, nodes: &[Node]) -> Reply<()> {
    if root as usize >= nodes.len() {
        return Err(6);
    }
    Ok(())
}

/// The Rust holding what a host lends, for a call on this root.
fn rust(host: &Host, root: u32) -> Reply<Rust> {
    let (names, nodes) = read(host)?;
    below(root, &nodes)?;
    Ok(Rust::holding(&nodes, &names))
}

fn lent(memory: &Memory) -> Lent {
    Lent {
        words: memory.words.len(),
        starts: memory.starts.len(),
    }
}

pub fn intern(host: &Host, words: &[u32]) -> Reply<Changed> {
    let (names, nodes) = read(host)?;
    let node = decode(NEW, words, nodes.len(), names.len())?;
    let number = Rust::holding(&nodes, &names).intern(&node);
    let mut memory = host.memory.clone();
    if number as usize == nodes.len() {
        if !memory.has_room(words) {
            return Err(7);
        }
        memory.push(words);
    }
    Ok((vec![number], memory))
}

pub fn order(host: &Host, left: u32, right: u32) -> Reply<Ordering> {
    let (names, nodes) = read(host)?;
    below(left, &nodes)?;
    below(right, &nodes)?;
    let order = Rust::holding(&nodes, &names).order(left, right);
    let defined = order::order(&nodes[left as usize], &nodes[right as usize]);
    assert_eq!(order, defined, "the Rust's order is another");
    Ok(order)
}

pub fn simplify(host: &Host, root: u32, left_out: &mut bool) -> Reply<Changed> {
    let (names, nodes) = read(host)?;
    below(root, &nodes)?;
    let run = simplify::simplify(&nodes, &names, root, lent(&host.memory));
    *left_out = !run.can_be_walked;
    match run.arena.refused {
        Some(number) => Err(number),
        None => {
            let memory = host.memory.holding(&run.arena.nodes);
            Ok((vec![run.root, run.passes], memory))
        }
    }
}

pub fn display(host: &Host, root: u32, room: u32) -> Reply<String> {
    rust(host, root)?.display(root, room as usize)
}

pub fn display_nix(host: &Host, root: u32, room: u32) -> Reply<String> {
    rust(host, root)?.display_nix(root, room as usize)
}

/// The bytes of the sheet, which must be read as what was written.
pub fn write_sheet(host: &Host, root: u32, room: u32) -> Reply<Vec<u8>> {
    let (names, nodes) = read(host)?;
    below(root, &nodes)?;
    let sheet = Sheet { names, nodes, root };
    let bytes = sheet::write(NEW, &sheet, room as usize)?;
    assert_eq!(
        sheet::read(NEW, &bytes),
        Ok(sheet),
        "the sheet is read as another"
    );
    Ok(bytes)
}

pub fn set_ops(host: &Host, root: u32) -> Reply<Changed> {
    let (names, nodes) = read(host)?;
    below(root, &nodes)?;
    let (new, arena) = normalize_set_ops(&nodes, &names, root, lent(&host.memory));
    match arena.refused {
        Some(number) => Err(number),
        None => Ok((vec![new], host.memory.holding(&arena.nodes))),
    }
}

/// A call of the Rust that may add nodes but builds no list: only 7 can be met.
pub fn renumber(
    host: &Host,
    root: u32,
    call: fn(&mut TypeArena, TyRef) -> TyRef,
) -> Reply<Changed> {
    let mut rust = rust(host, root)?;
    let new = rust.change(root, call);
    let nodes = rust.nodes();
    match first_refusal(&nodes, lent(&host.memory)) {
        Some(number) => Err(number),
        None => Ok((vec![new], host.memory.holding(&nodes))),
    }
}

pub fn ask<T>(host: &Host, root: u32, question: fn(&TypeArena, TyRef) -> T) -> Reply<T> {
    Ok(rust(host, root)?.ask(root, question))
}

pub fn unwrap_named(host: &Host, root: u32) -> Reply<u32> {
    Ok(rust(host, root)?.unwrap_named(root))
}

/// How many nodes are reachable: the Rust copies each of them once, and no other, into an empty arena.
pub fn reachable(host: &Host, root: u32) -> Reply<usize> {
    Ok(rust(host, root)?.compact(root).0.len())
}

/// The reply, and the target afterwards: as lent after 1, 2 and 6, but clear after 7.
pub fn compact(host: &Host, root: u32, target: &Memory) -> (Reply<u32>, Memory) {
    let source = || {
        let (names, nodes) = read(host)?;
        if target.words.len() > WORDS || target.starts.len() > NODES {
            return Err(2);
        }
        below(root, &nodes)?;
        Ok(Rust::holding(&nodes, &names))
    };
    let rust = match source() {
        Ok(rust) => rust,
        Err(number) => return (Err(number), target.clone()),
    };
    let (nodes, new) = rust.compact(root);
    match first_refusal(&nodes, lent(target)) {
        Some(number) => (Err(number), target.holding(&[])),
        None => (Ok(new), target.holding(&nodes)),
    }
}

/// The left's 1 and 2, the right's 1 and 2, then 6.
pub fn structurally_eq(left: (&Host, u32), right: (&Host, u32)) -> Reply<bool> {
    let (names, nodes) = read(left.0)?;
    let (other_names, other_nodes) = read(right.0)?;
    below(left.1, &nodes)?;
    below(right.1, &other_nodes)?;
    let other = Rust::holding(&other_nodes, &other_names);
    Ok(Rust::holding(&nodes, &names).structurally_eq(left.1, other, right.1))
}

/// The source's 1 and 2, the target's 1 and 2, 6, 12, then 7. The Rust has names as strings and stores whatever it is given, so
/// that 12 and 7 are also read off the arena that it leaves: a name that isn't in the table, a node that doesn't fit.
pub fn import_from_arena(source: &Host, root: u32, target: &Host) -> Reply<Changed> {
    let (names, nodes) = read(source)?;
    let (target_names, target_nodes) = read(target)?;
    below(root, &nodes)?;
    let mut rust = Rust::holding(&target_nodes, &target_names);
    let new = rust.import_from_arena(&Rust::holding(&nodes, &names), root);
    let lacks = |name: u16| !target_names.contains(&names[usize::from(name)]);
    let lacking = names_of(&nodes, root).into_iter().any(lacks);
    assert_eq!(rust.has_its_names(), !lacking, "12 is another's");
    if lacking {
        return Err(12);
    }
    let after = rust.nodes();
    match first_refusal(&after, lent(&target.memory)) {
        Some(number) => Err(number),
        None => Ok((vec![new], target.memory.holding(&after))),
    }
}

/// 1, 2, 6, 13, then 14. Where `normalize_set_ops` takes the type, the answer must stay the same.
pub fn fits(host: &Host, root: u32, words: &[u32]) -> Reply<bool> {
    let (names, nodes) = read(host)?;
    below(root, &nodes)?;
    let values = fix::decode(words, names.len())?;
    let is_variable = |&number: &u32| matches!(nodes[number as usize], Node::TyVar(_));
    if reached(&nodes, root).iter().any(is_variable) {
        return Err(14);
    }
    let answer = fix::fits(&nodes, root, &values);
    let all = Lent {
        words: WORDS,
        starts: NODES,
    };
    let (new, arena) = normalize_set_ops(&nodes, &names, root, all);
    if arena.refused.is_none() {
        let after = fix::fits(&arena.nodes, new, &values);
        assert_eq!(after, answer, "normalize_set_ops changes the answer");
    }
    Ok(answer)
}

/// The names of the nodes that are reachable from a root.
fn names_of(nodes: &[Node], root: u32) -> BTreeSet<u16> {
    let all = reached(nodes, root).into_iter();
    all.flat_map(|number| nodes[number as usize].names())
        .collect()
}

/// The nodes that are reachable from a root: a child is below its node, so one walk down meets them all.
pub fn reached(nodes: &[Node], root: u32) -> BTreeSet<u32> {
    let mut reached = BTreeSet::new();
    let mut met = BTreeSet::from([root]);
    while let Some(number) = met.pop_last() {
        reached.insert(number);
        met.extend(nodes[number as usize].children());
    }
    reached
}
