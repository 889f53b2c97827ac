//! A node as the words that the library reads (docs/HOST.md, "Words").

use coombtray::layout::*;
use smol_str::SmolStr;

use crate::names::Names;
use crate::refusal::Refused;
use crate::{AttrSetTy, OutputTy, PrimitiveTy, TyRef};

/// How a node's children and names are numbered; a child without a number isn't stored before the node.
pub(crate) struct Numbers<'a, C> {
    pub names: &'a Names,
    pub child: C,
}

impl<C: Fn(TyRef) -> Option<u32>> Numbers<'_, C> {
    fn child(&self, ty: TyRef) -> Result<u32, Refused> {
        (self.child)(ty).ok_or(Refused::CHILD)
    }

    fn field(&self, name: &SmolStr, ty: TyRef) -> Result<u32, Refused> {
        let child = self.child(ty)?;
        let rank = self.names.rank(name).ok_or(Refused::NAMES)?;
        Ok(field(rank, child))
    }

    fn members(&self, kind: u32, list: &[TyRef], words: &mut Vec<u32>) -> Result<(), Refused> {
        if list.is_empty() || list.len() > MOST {
            return Err(Refused::NODE);
        }
        words.push(head(kind, list.len()));
        for &ty in list {
            words.push(self.child(ty)?);
        }
        Ok(())
    }

    fn set(&self, attrs: &AttrSetTy<TyRef>, words: &mut Vec<u32>) -> Result<(), Refused> {
        let marked = |name| attrs.fields.contains_key(name);
        if attrs.fields.len() > MOST || !attrs.optional_fields.iter().all(marked) {
            return Err(Refused::NODE);
        }
        let count = attrs.fields.len() + usize::from(attrs.dyn_ty.is_some());
        let dynamic = attrs.dyn_ty.map_or(0, |_| DYNAMIC);
        let open = if attrs.open { OPEN } else { 0 };
        words.push(head(ATTR_SET, count) | dynamic | open);
        // Both are sorted, so the next optional name is met before any later one.
        let mut optional = attrs.optional_fields.iter().peekable();
        for (name, &ty) in &attrs.fields {
            let mark = optional.next_if_eq(&name).map_or(0, |_| OPTIONAL);
            words.push(self.field(name, ty)? | mark);
        }
        if let Some(ty) = attrs.dyn_ty {
            words.push(self.child(ty)?);
        }
        Ok(())
    }

    /// Puts the node's words after those that are there. A refusal leaves some of them; 1 is a name that isn't in the table.
    pub fn encode(&self, node: &OutputTy, words: &mut Vec<u32>) -> Result<(), Refused> {
        match node {
            OutputTy::Bottom => words.push(head(BOTTOM, 0)),
            OutputTy::Top => words.push(head(TOP, 0)),
            OutputTy::Primitive(primitive) => words.extend([head(PRIMITIVE, 1), *primitive as u32]),
            OutputTy::TyVar(index) => words.extend([head(TYVAR, 1), *index]),
            OutputTy::List(inner) => words.extend([head(LIST, 1), self.child(*inner)?]),
            OutputTy::Neg(inner) => words.extend([head(NEG, 1), self.child(*inner)?]),
            OutputTy::Lambda { param, body } => {
                words.extend([head(LAMBDA, 2), self.child(*param)?, self.child(*body)?])
            }
            OutputTy::Named(name, inner) => {
                words.extend([head(NAMED, 1), self.field(name, *inner)?])
            }
            OutputTy::AttrSet(attrs) => return self.set(attrs, words),
            OutputTy::Union(list) => return self.members(UNION, list, words),
            OutputTy::Intersection(list) => return self.members(INTERSECTION, list, words),
            OutputTy::Extern(_) => return Err(Refused::NODE),
        }
        Ok(())
    }
}

/// The names that stand in a node, each once. A name that is marked optional is a field's, or there are no words.
pub(crate) fn names_in(node: &OutputTy) -> impl Iterator<Item = &SmolStr> {
    let (attrs, name) = match node {
        OutputTy::AttrSet(attrs) => (Some(attrs), None),
        OutputTy::Named(name, _) => (None, Some(name)),
        _ => (None, None),
    };
    attrs.into_iter().flat_map(AttrSetTy::keys).chain(name)
}

/// Gives the name in a field's word the rank that it has now, by its old one.
pub(crate) fn rename(field: &mut u32, ranks: &[u16]) {
    let rank = ranks[name(*field) as usize];
    *field = with_name(*field, rank.into());
}

/// A node's words with each name by the number that stays.
pub(crate) fn lasting<'a>(words: &'a [u32], names: &'a Names) -> impl Iterator<Item = u32> + 'a {
    let (named, others) = words[1..].split_at(fields(words[0]));
    let lasting = |&word: &u32| with_name(word, names.came_at(name(word)));
    let first = words[..1].iter().copied();
    first
        .chain(named.iter().map(lasting))
        .chain(others.iter().copied())
}

/// The children in a node's words.
pub(crate) fn children(words: &[u32]) -> impl Iterator<Item = u32> + '_ {
    let leaf = kind(words[0]) <= TYVAR;
    let body = if leaf { &[] } else { &words[1..] };
    body.iter().map(|&word| child(word))
}

/// The node with these words, which the library wrote or found to be sound.
pub(crate) fn decode(words: &[u32], names: &Names, ty: impl Fn(u32) -> TyRef) -> OutputTy {
    let (head, body) = (words[0], &words[1..]);
    let ty = |word: u32| ty(child(word));
    let list = || body.iter().copied().map(ty).collect();
    let text = |word: u32| names.text(name(word)).clone();
    match kind(head) {
        BOTTOM => OutputTy::Bottom,
        TOP => OutputTy::Top,
        PRIMITIVE => OutputTy::Primitive(PrimitiveTy::BY_CODE[body[0] as usize]),
        TYVAR => OutputTy::TyVar(body[0]),
        LIST => OutputTy::List(ty(body[0])),
        LAMBDA => OutputTy::Lambda {
            param: ty(body[0]),
            body: ty(body[1]),
        },
        ATTR_SET => {
            let (named, rest) = body.split_at(fields(head));
            let optional = named.iter().filter(|&word| word & OPTIONAL > 0);
            OutputTy::AttrSet(AttrSetTy {
                fields: named.iter().map(|&word| (text(word), ty(word))).collect(),
                dyn_ty: rest.first().copied().map(ty),
                open: head & OPEN > 0,
                optional_fields: optional.map(|&word| text(word)).collect(),
            })
        }
        UNION => OutputTy::Union(list()),
        INTERSECTION => OutputTy::Intersection(list()),
        NAMED => OutputTy::Named(text(body[0]), ty(body[0])),
        NEG => OutputTy::Neg(ty(body[0])),
        kind => unreachable!("a sound arena has no node of kind {kind}"),
    }
}
