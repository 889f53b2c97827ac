//! Fixes beside types: most are made to fit, and some of these are then another in one place, or break the layout there.

use std::collections::BTreeMap;

use reference::case::Case;
use reference::fix::{Value, VALUES};
use reference::node::Node;

use crate::build::{names, Build};
use crate::cases::{host, root};
use crate::damage;
use crate::random::Random;
use crate::shapes::{shape, Shape};

pub fn fits(random: &mut Random) -> Case {
    let Shape { arena, root: at } = ty(random);
    let mut values = made(&arena, at, random);
    if random.percent(45) {
        change(&mut values, arena.names.len(), random);
    }
    if random.percent(4) {
        let count = VALUES - 1 + random.below(3);
        values = padded(values, count);
    }
    let mut fix = words(&values);
    if random.percent(16) {
        damage::fix(&mut fix, arena.names.len(), random);
    }
    let mut host = host(&arena, random);
    if random.percent(6) {
        damage::host(&mut host, random);
    }
    Case::Fits(host, root(&arena, at, random), fix)
}

pub fn words(values: &[Value]) -> Vec<u32> {
    values.iter().flat_map(Value::encode).collect()
}

/// So many values: others that nothing leads to stand before the last.
pub fn padded(mut values: Vec<Value>, count: usize) -> Vec<Value> {
    let more = count.saturating_sub(values.len());
    let last = values.len() - 1;
    values.splice(last..last, vec![Value::Plain(0); more]);
    values
}

/// A type of which some nodes may be variables, reachable or not; mostly there is none.
fn ty(random: &mut Random) -> Shape {
    let Shape { arena, root } = match random.percent(30) {
        true => shape(random),
        false => taking(random),
    };
    let kept = random.percent(12);
    let mut ground = Build::named(arena.names);
    let mut numbers: Vec<u32> = Vec::new();
    for node in &arena.nodes {
        let children = node.children().into_iter().map(|c| numbers[c as usize]);
        numbers.push(ground.put(match node {
            Node::TyVar(index) if !kept => Node::Primitive(index % 8),
            _ => node.with_children(children.collect()),
        }));
    }
    Shape {
        arena: ground,
        root: numbers[root as usize],
    }
}

/// A type that takes some values and not others: sets above all, and few nodes that take everything or nothing.
fn taking(random: &mut Random) -> Shape {
    let count = random.pick(&[1, 3, 5, 12, 80]);
    let mut arena = Build::named(names(random, count));
    for _ in 0..random.within(2..=6) {
        let kind = random.pick(&[2, 2, 2, 2, 2, 2, 0, 1, 3]);
        let leaf = arena.node(random, kind);
        arena.put(leaf);
    }
    for _ in 0..random.within(1..=12) {
        let kind = random.pick(&[6, 6, 6, 6, 6, 4, 4, 4, 7, 7, 7, 8, 8, 9, 10, 5]);
        let node = arena.node(random, kind);
        arena.put(node);
    }
    let set = arena.node(random, 6);
    let root = match random.below(10) {
        0..6 => arena.put(set),
        6 | 7 => arena.any(random),
        _ => arena.nodes.len() as u32 - 1,
    };
    Shape { arena, root }
}

/// Values of which the last is made for a type.
fn made(arena: &Build, root: u32, random: &mut Random) -> Vec<Value> {
    let left = random.pick(&[10, 50, 400]);
    let mut maker = Maker {
        arena,
        random,
        values: vec![],
        left,
    };
    let fix = maker.fitting(root).unwrap_or_else(|| maker.any());
    let mut values = maker.values;
    if fix as usize + 1 < values.len() {
        values.push(values[fix as usize].clone());
    }
    values
}

struct Maker<'a> {
    arena: &'a Build,
    random: &'a mut Random,
    values: Vec<Value>,
    /// How many nodes are looked at still: a type may have very many places.
    left: usize,
}

impl Maker<'_> {
    /// The number of a value; of an equal one, mostly, if there is one.
    fn put(&mut self, value: Value) -> u32 {
        let equal = self.values.iter().position(|other| *other == value);
        if let Some(number) = equal.filter(|_| self.random.percent(70)) {
            return number as u32;
        }
        self.values.push(value);
        self.values.len() as u32 - 1
    }

    /// Any value without children, or one that is there.
    fn any(&mut self) -> u32 {
        let value = match self.random.below(10) {
            kind @ 0..6 => Value::Plain(kind as u32),
            6 => Value::List(vec![]),
            7 => Value::Set(BTreeMap::new()),
            _ if self.values.is_empty() => Value::Plain(2),
            _ => return self.random.below(self.values.len()) as u32,
        };
        self.put(value)
    }

    /// A value that is likely to fit; none where it seems that none does.
    fn fitting(&mut self, ty: u32) -> Option<u32> {
        if self.left == 0 {
            return Some(self.any());
        }
        self.left -= 1;
        let arena = self.arena;
        let value = match &arena.nodes[ty as usize] {
            Node::Bottom | Node::Lambda(..) => return None,
            Node::Top | Node::TyVar(_) | Node::Neg(_) => return Some(self.any()),
            Node::Primitive(6) => Value::Plain(4),
            Node::Primitive(7) => Value::Plain(self.random.within(2..=3) as u32),
            Node::Primitive(code) => Value::Plain(*code),
            Node::List(of) => self.list(*of),
            Node::AttrSet(..) => self.set(ty)?,
            Node::Union(members) | Node::Intersection(members) => {
                let first = self.random.below(members.len());
                let (late, early) = members.split_at(first);
                let mut members = early.iter().chain(late);
                return members.find_map(|&member| self.fitting(member));
            }
            Node::Named(_, inner) => return self.fitting(*inner),
        };
        Some(self.put(value))
    }

    fn list(&mut self, of: u32) -> Value {
        let count = self.random.below(4);
        let elements = (0..count).map_while(|_| self.fitting(of));
        Value::List(elements.collect())
    }

    /// Every field that must be there, some that may, and some that the type doesn't name.
    fn set(&mut self, ty: u32) -> Option<Value> {
        let arena = self.arena;
        let Node::AttrSet(fields, dynamic, open) = &arena.nodes[ty as usize] else {
            unreachable!("no set");
        };
        let mut set = BTreeMap::new();
        for field in fields {
            if !field.optional {
                set.insert(field.name, self.fitting(field.child)?);
            } else if self.random.percent(60) {
                let child = self.fitting(field.child);
                set.extend(child.map(|child| (field.name, child)));
            }
        }
        for _ in 0..self.random.below(3) {
            let name = self.random.below(arena.names.len().max(1)) as u16;
            let named = fields.iter().any(|field| field.name == name);
            let child = match (dynamic, open) {
                _ if named || arena.names.is_empty() => None,
                (Some(dynamic), _) => self.fitting(*dynamic),
                (None, open) => open.then(|| self.any()),
            };
            set.extend(child.map(|child| (name, child)));
        }
        Some(Value::Set(set))
    }
}

/// Makes one value another, under a table of so many names.
fn change(values: &mut [Value], names: usize, random: &mut Random) {
    let at = match random.percent(40) {
        true => values.len() - 1,
        false => random.below(values.len()),
    };
    // Often what is nearest: null and bool, int and float, string and path.
    let kind = match values[at] {
        Value::Plain(kind) if random.percent(50) => kind ^ 1,
        _ => random.below(8) as u32,
    };
    let child = random.below(at.max(1)) as u32;
    match &mut values[at] {
        Value::List(elements) if at > 0 && random.percent(80) => match random.below(3) {
            0 => drop(elements.pop()),
            1 => elements.push(child),
            _ => elements
                .iter_mut()
                .take(1)
                .for_each(|element| *element = child),
        },
        Value::Set(fields) if at > 0 && names > 0 && random.percent(80) => {
            let name = random.below(names) as u16;
            let present: Vec<u16> = fields.keys().copied().collect();
            match random.below(3) {
                0 if !present.is_empty() => drop(fields.remove(&random.pick(&present))),
                1 if !present.is_empty() => drop(fields.insert(random.pick(&present), child)),
                _ => drop(fields.insert(name, child)),
            }
        }
        other => {
            *other = match kind {
                6 => Value::List(vec![]),
                7 => Value::Set(BTreeMap::new()),
                _ => Value::Plain(kind),
            }
        }
    }
}

#[cfg(test)]
mod tests {
    use reference::calls;
    use reference::case::Host;
    use reference::fix;
    use reference::node::Field;

    use super::*;

    /// What a case is, by the reference: the refusal, or what the type is and whether it takes the fix.
    fn kinds(host: &Host, root: u32, words: &[u32]) -> Vec<String> {
        let mut kinds = Vec::new();
        match calls::fits(host, root, words) {
            Err(number) => kinds.push(format!("{number}")),
            Ok(answer) => {
                let (names, nodes) = calls::read(host).unwrap();
                let values = fix::decode(words, names.len()).unwrap();
                let of_type = of_type(&nodes[root as usize], values.last().unwrap());
                let of_type = of_type.into_iter();
                kinds.extend(of_type.map(|kind| format!("{kind}: {answer}")));
                kinds.push(format!("{answer}"));
                kinds.extend(of_rest(&nodes, &values).into_iter().map(String::from));
            }
        }
        if count(words) > VALUES {
            kinds.push("over 1,024 values".into());
        }
        if words.is_empty() {
            kinds.push("no word".into());
        }
        kinds
    }

    /// How many values there seem to be.
    fn count(mut words: &[u32]) -> usize {
        let mut count = 0;
        while let Some((head, rest)) = words.split_first() {
            words = rest.get((head & 0xffff) as usize..).unwrap_or(&[]);
            count += 1;
        }
        count
    }

    fn of_type(ty: &Node, value: &Value) -> Vec<&'static str> {
        match (ty, value) {
            (Node::AttrSet(fields, dynamic, open), Value::Set(given)) => {
                of_sets(fields, dynamic.is_some(), *open, given)
            }
            (Node::List(_), Value::List(elements)) if elements.len() > 1 => vec!["a list"],
            (Node::Primitive(_), _) => vec!["a primitive"],
            (Node::Union(_), _) => vec!["a union"],
            (Node::Intersection(_), _) => vec!["an intersection"],
            (Node::Named(..), _) => vec!["an alias"],
            (Node::Neg(_), _) => vec!["a neg"],
            _ => vec![],
        }
    }

    fn of_sets(
        fields: &[Field],
        dynamic: bool,
        open: bool,
        given: &BTreeMap<u16, u32>,
    ) -> Vec<&'static str> {
        let named = |name: &u16| fields.iter().any(|field| field.name == *name);
        let lacks = |field: &Field| !given.contains_key(&field.name);
        let mut kinds = Vec::new();
        if fields.iter().any(|field| !field.optional && lacks(field)) {
            kinds.push("a lacking field");
        } else if fields.iter().any(lacks) {
            kinds.push("an optional field that lacks");
        }
        if !given.keys().all(named) {
            kinds.push(match (dynamic, open) {
                (true, true) => "another field, dynamic and open",
                (true, false) => "another field, dynamic",
                (false, true) => "another field, open",
                (false, false) => "another field, closed",
            });
        }
        kinds
    }

    fn of_rest(nodes: &[Node], values: &[Value]) -> Vec<&'static str> {
        let mut kinds = Vec::new();
        if nodes.iter().any(|node| matches!(node, Node::TyVar(_))) {
            kinds.push("a variable elsewhere");
        }
        if values.len() == VALUES {
            kinds.push("1,024 values");
        }
        if nodes.len() > 300 {
            kinds.push("a large arena");
        }
        kinds
    }

    /// All that are met among 1,000 cases, and how often.
    fn met() -> BTreeMap<String, usize> {
        let mut met = BTreeMap::new();
        for number in 0..1_000 {
            let case = fits(&mut Random::new(1, 27, number));
            let Case::Fits(host, root, words) = case else {
                panic!("another operation");
            };
            for kind in kinds(&host, root, &words) {
                *met.entry(kind).or_insert(0) += 1;
            }
        }
        met
    }

    #[test]
    fn every_kind_is_met() {
        // The reference goes as deep as the type.
        let met = stacker::maybe_grow(0, 0, met);
        let fair = met["true"] > 300 && met["false"] > 300;
        assert!(met.len() == 34 && fair, "{met:#?}");
    }
}
