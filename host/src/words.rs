//! A node as the words that the library reads.

use std::collections::HashMap;

use crate::ffi;
use crate::layout::*;
use crate::{AttrSetTy, Field, Names, OutputTy, PrimitiveTy, Refusal, TyRef};

fn node(kind: u32, body: Vec<u32>) -> Vec<u32> {
    let mut words = vec![head(kind, body.len())];
    words.extend(body);
    words
}

/// A number that twelve bits can't hold is below no node count.
fn number(ty: TyRef) -> Result<u32, Refusal> {
    let number = ty.into_raw();
    if number as usize >= ffi::STARTS {
        return Err(Refusal::CHILD);
    }
    Ok(number)
}

/// Numbers of names that were found: a search judges the whole table, so an arena has each name sought once.
#[derive(Clone, Default)]
pub(crate) struct Known(HashMap<String, u32>);

impl Known {
    pub fn get(&self, name: &str) -> Option<u32> {
        self.0.get(name).copied()
    }

    pub fn number(&mut self, names: &Names, name: &str) -> Result<u32, Refusal> {
        if let Some(number) = self.get(name) {
            return Ok(number);
        }
        let number = names.find(name).map_err(|_| Refusal::CHILD)?;
        self.0.insert(name.to_string(), number);
        Ok(number)
    }
}

fn named(names: &Names, known: &mut Known, name: &str, of: Field) -> Result<u32, Refusal> {
    let rank = known.number(names, name)?;
    let optional = if of.optional { OPTIONAL } else { 0 };
    Ok(field(rank, number(of.ty)?) | optional)
}

fn set(names: &Names, known: &mut Known, attrs: &AttrSetTy) -> Result<Vec<u32>, Refusal> {
    // Said here, since 3 comes before the 4 of a name or child that has no word.
    if attrs.fields.len() > MOST {
        return Err(Refusal::NODE);
    }
    let mut body = Vec::new();
    for (name, &of) in &attrs.fields {
        body.push(named(names, known, name, of)?);
    }
    if let Some(ty) = attrs.dyn_ty {
        body.push(number(ty)?);
    }
    let mut words = node(ATTR_SET, body);
    words[0] |= if attrs.open { OPEN } else { 0 };
    words[0] |= attrs.dyn_ty.map_or(0, |_| DYNAMIC);
    Ok(words)
}

fn members(kind: u32, list: &[TyRef]) -> Result<Vec<u32>, Refusal> {
    // As for fields.
    if list.is_empty() || list.len() > MOST {
        return Err(Refusal::NODE);
    }
    let body: Result<Vec<u32>, Refusal> = list.iter().map(|&ty| number(ty)).collect();
    Ok(node(kind, body?))
}

/// The words of a node; 3 or 4 if it has none. What is known is of the same names.
pub(crate) fn encode(names: &Names, known: &mut Known, ty: &OutputTy) -> Result<Vec<u32>, Refusal> {
    Ok(match ty {
        OutputTy::Bottom => node(BOTTOM, vec![]),
        OutputTy::Top => node(TOP, vec![]),
        OutputTy::Primitive(primitive) => node(PRIMITIVE, vec![*primitive as u32]),
        OutputTy::TyVar(index) => node(TYVAR, vec![*index]),
        OutputTy::List(inner) => node(LIST, vec![number(*inner)?]),
        OutputTy::Lambda { param, body } => node(LAMBDA, vec![number(*param)?, number(*body)?]),
        OutputTy::AttrSet(attrs) => set(names, known, attrs)?,
        OutputTy::Union(list) => members(UNION, list)?,
        OutputTy::Intersection(list) => members(INTERSECTION, list)?,
        OutputTy::Named(name, inner) => {
            let field = Field::required(*inner);
            node(NAMED, vec![named(names, known, name, field)?])
        }
        OutputTy::Neg(inner) => node(NEG, vec![number(*inner)?]),
    })
}

fn number_in(word: u32) -> TyRef {
    TyRef::from_raw(child(word))
}

fn named_in(names: &Names, word: u32) -> (String, Field) {
    let name = names.text(name(word)).to_string();
    let field = Field {
        ty: number_in(word),
        optional: word & OPTIONAL > 0,
    };
    (name, field)
}

/// The node with these words, which stand in a sound arena with these names.
pub(crate) fn decode(names: &Names, words: &[u32]) -> OutputTy {
    let (head, body) = (words[0], &words[1..]);
    let list = || body.iter().copied().map(number_in).collect();
    match kind(head) {
        BOTTOM => OutputTy::Bottom,
        TOP => OutputTy::Top,
        PRIMITIVE => OutputTy::Primitive(PrimitiveTy::ALL[body[0] as usize]),
        TYVAR => OutputTy::TyVar(body[0]),
        LIST => OutputTy::List(number_in(body[0])),
        LAMBDA => OutputTy::Lambda {
            param: number_in(body[0]),
            body: number_in(body[1]),
        },
        ATTR_SET => {
            let (named, rest) = body.split_at(fields(head));
            OutputTy::AttrSet(AttrSetTy {
                fields: named.iter().map(|&word| named_in(names, word)).collect(),
                dyn_ty: rest.first().copied().map(number_in),
                open: head & OPEN > 0,
            })
        }
        UNION => OutputTy::Union(list()),
        INTERSECTION => OutputTy::Intersection(list()),
        NAMED => {
            let (name, field) = named_in(names, body[0]);
            OutputTy::Named(name, field.ty)
        }
        NEG => OutputTy::Neg(number_in(body[0])),
        kind => unreachable!("a sound arena has no node of kind {kind}"),
    }
}
