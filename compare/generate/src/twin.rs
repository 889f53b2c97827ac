//! Copies of a type under other numbers and in a larger table: what two-arena equality must see through.

use std::collections::BTreeSet;

use reference::layout::NEW;
use reference::node::Node;

use crate::build::{names, Build};
use crate::random::Random;

/// The copy, and the root there. In half of the copies one node is another.
pub fn copy(arena: &Build, at: u32, random: &mut Random) -> (Build, u32) {
    let mut all: BTreeSet<Vec<u8>> = arena.names.iter().cloned().collect();
    if all.len() + 2 <= NEW.names {
        all.extend(names(random, 2));
    }
    let mut copy = Build::named(all.into_iter().collect());
    let place = |name: &Vec<u8>| copy.names.binary_search(name).unwrap() as u16;
    let places: Vec<u16> = arena.names.iter().map(place).collect();
    for _ in 0..random.below(4) {
        let kind = random.below(11);
        let node = copy.node(random, kind);
        copy.put(node);
    }
    let changed = random.percent(50).then(|| random.below(at as usize + 1));
    let mut numbers: Vec<u32> = Vec::new();
    for (number, node) in arena.nodes[..=at as usize].iter().enumerate() {
        let children = node.children().into_iter().map(|c| numbers[c as usize]);
        let mut node = renamed(node.with_children(children.collect()), &places);
        if changed == Some(number) {
            change(&mut node, random);
        }
        numbers.push(copy.put(node));
    }
    (copy, numbers[at as usize])
}

pub fn renamed(mut node: Node, places: &[u16]) -> Node {
    match &mut node {
        Node::AttrSet(fields, ..) => {
            for field in fields {
                field.name = places[usize::from(field.name)];
            }
        }
        Node::Named(name, _) => *name = places[usize::from(*name)],
        _ => {}
    }
    node
}

pub fn change(node: &mut Node, random: &mut Random) {
    match node {
        Node::Primitive(code) => *code = (*code + 1) % 8,
        Node::TyVar(index) => *index = index.wrapping_add(1),
        Node::AttrSet(fields, dynamic, open) => match random.below(4) {
            0 => *dynamic = None,
            1 => drop(fields.pop()),
            2 if !fields.is_empty() => fields[0].optional = !fields[0].optional,
            _ => *open = !*open,
        },
        Node::Union(members) if members.len() > 1 => drop(members.pop()),
        Node::Intersection(members) => *node = Node::Union(members.clone()),
        Node::Named(name, _) => *name = name.saturating_sub(1),
        Node::List(child) => *node = Node::Neg(*child),
        Node::Lambda(param, body) => std::mem::swap(param, body),
        _ => *node = Node::Top,
    }
}
