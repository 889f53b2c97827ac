//! Nodes, sets and types of inference as values: order, hashes, `Debug`, merging.

use std::fmt::Write;

use lang_ty::{AttrSetTy, OutputTy, Ty, TyRef};

use crate::random::Random;
use crate::report::{hash, say};
use crate::types::{children, number, numbered, Made};

/// The same kind of node with one thing changed; its children needn't be in any arena.
fn moved(random: &mut Random, node: &OutputTy) -> OutputTy {
    let other = numbered(random.word());
    let mut node = node.clone();
    match &mut node {
        OutputTy::List(inner) | OutputTy::Neg(inner) | OutputTy::Named(_, inner) => *inner = other,
        OutputTy::Lambda { param, .. } if random.percent(50) => *param = other,
        OutputTy::Lambda { body, .. } => *body = other,
        OutputTy::Union(members) | OutputTy::Intersection(members) => {
            moved_member(random, members, other)
        }
        OutputTy::AttrSet(set) => moved_set(random, set, other),
        OutputTy::TyVar(index) => *index = random.word(),
        _ => {}
    }
    node
}

fn moved_member(random: &mut Random, members: &mut Vec<TyRef>, other: TyRef) {
    match random.below(3) {
        0 => members.reverse(),
        1 => members.push(other),
        _ => members.truncate(random.below(members.len() + 1)),
    }
}

fn moved_set(random: &mut Random, set: &mut AttrSetTy<TyRef>, other: TyRef) {
    let names: Vec<_> = set.keys().cloned().collect();
    let Some(name) = names.get(random.below(names.len() + 2)).cloned() else {
        match random.percent(50) {
            true => set.open = !set.open,
            false => set.dyn_ty = set.dyn_ty.xor(Some(other)),
        }
        return;
    };
    match random.below(3) {
        0 => _ = set.fields.insert(name, other),
        1 => _ = set.fields.remove(&name),
        _ if set.optional_fields.remove(&name) => {}
        _ => _ = set.optional_fields.insert(name),
    }
}

fn pair(out: &mut String, one: &OutputTy, other: &OutputTy) {
    let order = (one.cmp(other), one.partial_cmp(other), one < other);
    say!(
        out,
        "{order:?}, equal {}, hashes {}",
        one == other,
        hash(one) == hash(other)
    );
}

/// Whether its hash is that of an address.
fn is_extern(node: &OutputTy) -> bool {
    matches!(node, OutputTy::Extern(_))
}

pub fn nodes(out: &mut String, random: &mut Random, made: &Made) {
    let count = made.arena.len();
    let mut some: Vec<_> = (0..count.min(12))
        .map(|_| numbered(random.below(count) as u32))
        .collect();
    for two in some.windows(2) {
        let (one, other) = (&made.arena[two[0]], &made.arena[two[1]]);
        pair(out, one, other);
        pair(out, one, &moved(random, one));
        if !is_extern(one) {
            say!(out, "hash {} {:?}", hash(one), inference(one));
        }
        let of_inference = (inference(one), inference(other));
        say!(
            out,
            "of inference equal {}",
            of_inference.0 == of_inference.1.clone()
        );
    }
    some.sort_by(|one, other| made.arena[*one].cmp(&made.arena[*other]));
    say!(out, "sorted {some:?}");
}

/// The node as inference has it, with two children in place of more.
fn inference(node: &OutputTy) -> Ty<TyRef> {
    let below = children(node);
    match node {
        OutputTy::TyVar(index) => Ty::TyVar(*index),
        OutputTy::Primitive(primitive) => Ty::from(*primitive),
        OutputTy::List(inner) => Ty::List(*inner),
        OutputTy::Lambda { param, body } => Ty::Lambda {
            param: *param,
            body: *body,
        },
        OutputTy::AttrSet(set) => Ty::AttrSet(set.clone()),
        OutputTy::Neg(inner) => Ty::Neg(*inner),
        OutputTy::Named(name, inner) => Ty::Named(name.clone(), *inner),
        OutputTy::Extern(owned) => Ty::Frozen(owned.clone()),
        OutputTy::Union(_) if below.len() > 1 => Ty::Union(below[0], below[1]),
        OutputTy::Intersection(_) if below.len() > 1 => Ty::Inter(below[0], below[1]),
        _ => Ty::TyVar(u32::MAX),
    }
}

/// Sets of one arena with those of another, as far as there are any.
pub fn sets(
    out: &mut String,
    random: &mut Random,
    first: &[&AttrSetTy<TyRef>],
    second: &[&AttrSetTy<TyRef>],
) {
    if first.is_empty() || second.is_empty() {
        return;
    }
    for _ in 0..3 {
        let (one, other) = (random.pick(first), random.pick(second));
        say!(
            out,
            "{:?} {:?} {}",
            one.cmp(other),
            one.partial_cmp(other),
            hash(one)
        );
        let merged = one.clone().merge(other.clone());
        let key = other.keys().next();
        let found = key.and_then(|key| merged.get(key));
        say!(out, "{merged:?} {found:?} {}", merged == *one);
        let texts = text_set(one).merge(text_set(other));
        say!(out, "{texts:?} {}", hash(&texts));
    }
}

/// The same set over other children.
fn text_set(set: &AttrSetTy<TyRef>) -> AttrSetTy<String> {
    let text = |ty: &TyRef| format!("<{}>", number(*ty));
    let fields = set.fields.iter().map(|(name, ty)| (name.clone(), text(ty)));
    AttrSetTy {
        dyn_ty: set.dyn_ty.as_ref().map(text),
        open: set.open,
        optional_fields: set.optional_fields.clone(),
        ..AttrSetTy::from_fields(fields.collect())
    }
}
