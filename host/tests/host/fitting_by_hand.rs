//! Random fixes, as words and as values, held against random types by the raw call and by the crate, beside a judgement of this
//! file's own.

use std::collections::{BTreeMap, HashMap};

use coombtray::{AttrSetTy, OutputTy, PrimitiveTy, Refusal, TyRef, TypeArena, Value};

use crate::fitting::{one_of_each, raw};
use crate::importing::{at, Lent};
use crate::importing_by_hand::{any_node, arena, children, one_of, some_names};
use crate::random::Random;

/// The fix of these words; none if they break the layout.
fn decode(names: &[String], words: &[u32]) -> Option<Value> {
    let (mut values, mut rest) = (Vec::new(), words);
    while let Some((&head, after)) = rest.split_first() {
        let (kind, count) = (head as usize >> 28, (head & 0xffff) as usize);
        if head >> 16 & 0xfff != 0 || count > after.len() {
            return None;
        }
        let (body, others) = after.split_at(count);
        rest = others;
        values.push(match kind {
            0..=5 if count == 0 => one_of_each()[kind].clone(),
            6 => {
                let items = body
                    .iter()
                    .map(|&child| values.get(child as usize).cloned());
                Value::List(items.collect::<Option<_>>()?)
            }
            7 => fields(names, body, &values)?,
            _ => return None,
        });
    }
    values.pop().filter(|_| values.len() < 1_024)
}

fn fields(names: &[String], body: &[u32], values: &[Value]) -> Option<Value> {
    if !body.windows(2).all(|two| two[0] >> 15 < two[1] >> 15) {
        return None;
    }
    // An optional mark makes a name's number too high, a zero field that isn't zero a child's.
    let named = body.iter().map(|&word| {
        let name = names.get(word as usize >> 15)?;
        Some((name.clone(), values.get(word as usize & 0x7fff)?.clone()))
    });
    Some(Value::Set(named.collect::<Option<_>>()?))
}

fn node(nodes: &[OutputTy], ty: TyRef) -> &OutputTy {
    &nodes[ty.into_raw() as usize]
}

fn has_variable(nodes: &[OutputTy], ty: TyRef) -> bool {
    let mut node = node(nodes, ty).clone();
    matches!(node, OutputTy::TyVar(_))
        || children(&mut node)
            .into_iter()
            .any(|&mut child| has_variable(nodes, child))
}

fn takes_primitive(of: PrimitiveTy, value: &Value) -> bool {
    match value {
        Value::Null => of == PrimitiveTy::Null,
        Value::Bool(_) => of == PrimitiveTy::Bool,
        Value::Int(_) => [PrimitiveTy::Int, PrimitiveTy::Number].contains(&of),
        Value::Float(_) => [PrimitiveTy::Float, PrimitiveTy::Number].contains(&of),
        Value::String(_) => [PrimitiveTy::String, PrimitiveTy::Uri].contains(&of),
        Value::Path(_) => of == PrimitiveTy::Path,
        Value::List(_) | Value::Set(_) => false,
    }
}

fn takes_fields(nodes: &[OutputTy], attrs: &AttrSetTy, fields: &BTreeMap<String, Value>) -> bool {
    let required = attrs.fields.iter().filter(|(_, field)| !field.optional);
    let all_there = required
        .into_iter()
        .all(|(name, _)| fields.contains_key(name));
    let each = fields.iter().all(|(name, value)| {
        let named = attrs.fields.get(name).map(|field| field.ty);
        match named.or(attrs.dyn_ty) {
            Some(ty) => takes(nodes, ty, value),
            None => attrs.open,
        }
    });
    all_there && each
}

fn takes(nodes: &[OutputTy], ty: TyRef, value: &Value) -> bool {
    let of = |&ty: &TyRef| takes(nodes, ty, value);
    match (node(nodes, ty), value) {
        (OutputTy::Top, _) => true,
        (OutputTy::Primitive(primitive), _) => takes_primitive(*primitive, value),
        (OutputTy::Union(members), _) => members.iter().any(of),
        (OutputTy::Intersection(members), _) => members.iter().all(of),
        (OutputTy::Named(_, inner), _) => of(inner),
        (OutputTy::Neg(inner), _) => !of(inner),
        (OutputTy::List(inner), Value::List(items)) => {
            items.iter().all(|item| takes(nodes, *inner, item))
        }
        (OutputTy::AttrSet(attrs), Value::Set(fields)) => takes_fields(nodes, attrs, fields),
        _ => false,
    }
}

/// Random nodes, each once; most arenas have no variable.
fn any_types(random: &mut Random, names: &[String]) -> Vec<OutputTy> {
    let variables = random.below(4) == 0;
    let (mut nodes, count) = (Vec::new(), 1 + random.below(25) as usize);
    while nodes.len() < count {
        let node = any_node(random, names, nodes.len() as u32);
        let variable = matches!(node, OutputTy::TyVar(_));
        if (variables || !variable) && !nodes.contains(&node) {
            nodes.push(node);
        }
    }
    nodes
}

/// A value that mostly fits the type, or nearly.
fn value_for(random: &mut Random, nodes: &[OutputTy], names: &[String], ty: TyRef) -> Value {
    let of = |random: &mut Random, ty| value_for(random, nodes, names, ty);
    match node(nodes, ty) {
        _ if random.below(12) == 0 => one_of(random, &one_of_each()),
        OutputTy::Primitive(PrimitiveTy::Number) => Value::Int(1),
        OutputTy::Primitive(PrimitiveTy::Uri) => Value::String("~".into()),
        OutputTy::Primitive(primitive) => one_of_each()[*primitive as usize].clone(),
        OutputTy::List(inner) => {
            let count = random.below(4);
            Value::List((0..count).map(|_| of(random, *inner)).collect())
        }
        OutputTy::AttrSet(attrs) => {
            let mut fields = BTreeMap::new();
            for (name, field) in &attrs.fields {
                if !field.optional || random.below(2) == 0 {
                    fields.insert(name.clone(), of(random, field.ty));
                }
            }
            if !names.is_empty() && random.below(3) == 0 {
                let ty = attrs.dyn_ty.unwrap_or(at(0));
                fields.insert(one_of(random, names), of(random, ty));
            }
            Value::Set(fields)
        }
        OutputTy::Union(members) | OutputTy::Intersection(members) => {
            let member = one_of(random, members);
            of(random, member)
        }
        OutputTy::Named(_, inner) => of(random, *inner),
        _ => one_of(random, &one_of_each()),
    }
}

/// The words of a fix, of which each value may be there already, and some lead to nothing.
#[derive(Default)]
struct Packed {
    words: Vec<u32>,
    values: Vec<Value>,
}

impl Packed {
    fn put(&mut self, random: &mut Random, names: &[String], value: &Value) -> u32 {
        let there = self.values.iter().position(|one| one == value);
        if let Some(number) = there.filter(|_| random.below(3) > 0) {
            return number as u32;
        }
        if random.below(10) == 0 {
            self.push(0, vec![], &Value::Null);
        }
        let (kind, body) = match value {
            Value::List(items) => {
                let items = items.iter().map(|item| self.put(random, names, item));
                (6, items.collect())
            }
            Value::Set(fields) => {
                let fields = fields.iter().map(|(name, value)| {
                    let number = names.iter().position(|one| one == name).unwrap() as u32;
                    number << 15 | self.put(random, names, value)
                });
                (7, fields.collect())
            }
            leaf => {
                let kind = one_of_each()
                    .iter()
                    .position(|one| std::mem::discriminant(one) == std::mem::discriminant(leaf));
                (kind.unwrap() as u32, vec![])
            }
        };
        self.push(kind, body, value)
    }

    fn push(&mut self, kind: u32, body: Vec<u32>, value: &Value) -> u32 {
        self.words.push(kind << 28 | body.len() as u32);
        self.words.extend(body);
        self.values.push(value.clone());
        self.values.len() as u32 - 1
    }
}

/// Words that may be a fix yet: a bit is another, or a word is missing or too many.
fn damage(random: &mut Random, words: &mut Vec<u32>) {
    let at = random.below(words.len() as u32) as usize;
    match random.below(4) {
        0 => drop(words.remove(at)),
        1 => words.insert(at, random.below(3)),
        2 => words[at] ^= 1 << random.below(32),
        _ => words[at] ^= 1 << one_of(random, &[0, 1, 15, 16, 28, 29, 30]),
    }
}

/// What both ways say of a fix and a type, and that it is what this file says.
fn judged(t: &TypeArena, nodes: &[OutputTy], names: &[String], root: TyRef, words: &[u32]) -> u32 {
    let value = decode(names, words);
    let variable = has_variable(nodes, root);
    let answer = match &value {
        None => Err(13),
        Some(_) if variable => Err(14),
        Some(value) => Ok(takes(nodes, root, value)),
    };
    let lent = Lent::new(t.words(), (5, 2));
    let told = raw(t.names().table(), &lent, root.into_raw(), words);
    let expected = answer.map_or_else(|number| [number, 77], |fits| [0, u32::from(fits)]);
    assert_eq!(told, expected, "{nodes:?} at {root:?}: {words:x?}");
    if let Some(value) = value {
        let fits = |t: &TypeArena, ty| t.fits(ty, &value).map_err(Refusal::number);
        assert_eq!(fits(t, root), answer, "{nodes:?} at {root:?}: {value:?}");
        let mut flat = t.clone();
        if let Ok(ty) = flat.normalize_set_ops(root) {
            assert_eq!(fits(&flat, ty), answer, "{nodes:?} at {root:?}: {value:?}");
        }
    }
    answer.map_or_else(|number| number, u32::from)
}

#[test]
fn random_fixes() {
    let mut random = Random::new(5);
    let mut met = HashMap::new();
    for _ in 0..1_000 {
        let table = some_names(&mut random);
        let names: Vec<String> = table.iter().cloned().collect();
        let nodes = any_types(&mut random, &names);
        let t = arena(&table, &nodes);
        let root = at(nodes.len() as u32 - 1);
        let mut packed = Packed::default();
        let value = value_for(&mut random, &nodes, &names, root);
        packed.put(&mut random, &names, &value);
        let answer = judged(&t, &nodes, &names, root, &packed.words);
        *met.entry(answer).or_insert(0) += 1;
        damage(&mut random, &mut packed.words);
        let answer = judged(&t, &nodes, &names, root, &packed.words);
        *met.entry(answer).or_insert(0) += 1;
    }
    let often = met.values().all(|&often| often > 75);
    assert!(met.len() == 4 && often, "{met:?}");
}
