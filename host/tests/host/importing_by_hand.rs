//! Random types imported by the raw call and by the crate, beside an import of this file's own, which knows names by their texts and
//! nothing of words.

use std::collections::{BTreeSet, HashMap};

use coombtray::{
    import_from_arena, AttrSetTy, Field, Names, OutputTy, PrimitiveTy, Refusal, TyRef, TypeArena,
};

use crate::build::*;
use crate::importing::{at, import, raw, Lent};
use crate::random::Random;

/// An import that knows nodes with their names as texts, and counts words.
struct Simple<'a> {
    source: &'a [OutputTy],
    target: Vec<OutputTy>,
    /// How many words and nodes there may be yet.
    spare: (usize, usize),
    met: HashMap<TyRef, TyRef>,
}

fn names_of(node: &OutputTy) -> Vec<&str> {
    match node {
        OutputTy::AttrSet(attrs) => attrs.fields.keys().map(String::as_str).collect(),
        OutputTy::Named(name, _) => vec![name],
        _ => vec![],
    }
}

/// The node's children from left to right, to be read and written.
pub fn children(node: &mut OutputTy) -> Vec<&mut TyRef> {
    match node {
        OutputTy::List(inner) | OutputTy::Neg(inner) | OutputTy::Named(_, inner) => vec![inner],
        OutputTy::Lambda { param, body } => vec![param, body],
        OutputTy::Union(members) | OutputTy::Intersection(members) => members.iter_mut().collect(),
        OutputTy::AttrSet(attrs) => {
            let fields = attrs.fields.values_mut().map(|field| &mut field.ty);
            fields.chain(&mut attrs.dyn_ty).collect()
        }
        _ => vec![],
    }
}

fn word_count(node: &OutputTy) -> usize {
    match node {
        OutputTy::Bottom | OutputTy::Top => 1,
        OutputTy::TyVar(_) | OutputTy::Primitive(_) => 2,
        _ => 1 + children(&mut node.clone()).len(),
    }
}

impl Simple<'_> {
    /// Whether all names of the type are among these.
    fn has_names(&self, ty: TyRef, names: &BTreeSet<String>) -> bool {
        let mut node = self.source[ty.into_raw() as usize].clone();
        let own = names_of(&node).into_iter().all(|name| names.contains(name));
        own && children(&mut node)
            .into_iter()
            .all(|&mut child| self.has_names(child, names))
    }

    /// Imports some types of the source, with which the target may have parts of another.
    fn import_parts(&mut self, random: &mut Random, names: &BTreeSet<String>) {
        for _ in 0..random.below(4) {
            let part = at(random.below(self.source.len() as u32));
            if self.has_names(part, names) {
                self.import(part).unwrap();
                self.met.clear();
            }
        }
    }

    /// The type's number in a target with these names, or the refusal.
    fn answer(&mut self, ty: TyRef, names: &BTreeSet<String>) -> Result<TyRef, u32> {
        if !self.has_names(ty, names) {
            return Err(12);
        }
        self.import(ty)
    }

    fn import(&mut self, ty: TyRef) -> Result<TyRef, u32> {
        if let Some(&stored) = self.met.get(&ty) {
            return Ok(stored);
        }
        let mut node = self.source[ty.into_raw() as usize].clone();
        for child in children(&mut node) {
            *child = self.import(*child)?;
        }
        let stored = self.intern(node)?;
        self.met.insert(ty, stored);
        Ok(stored)
    }

    fn intern(&mut self, node: OutputTy) -> Result<TyRef, u32> {
        if let Some(number) = self.target.iter().position(|there| *there == node) {
            return Ok(at(number as u32));
        }
        let words = word_count(&node);
        if self.spare.0 < words || self.spare.1 == 0 {
            return Err(7);
        }
        self.spare = (self.spare.0 - words, self.spare.1 - 1);
        self.target.push(node);
        Ok(at(self.target.len() as u32 - 1))
    }
}

const TEXTS: [&str; 8] = ["a", "ab", "b", "p", "pitch", "roll", "roll angle", "~"];

pub fn one_of<T: Clone>(random: &mut Random, items: &[T]) -> T {
    items[random.below(items.len() as u32) as usize].clone()
}

pub fn some_names(random: &mut Random) -> BTreeSet<String> {
    let texts = TEXTS.iter().filter(|_| random.below(3) > 0);
    texts.map(|text| text.to_string()).collect()
}

/// The target's names: the same, all, all but some first ones, or any.
fn target_names(random: &mut Random, of_source: &BTreeSet<String>) -> BTreeSet<String> {
    let all = TEXTS.map(str::to_string);
    match random.below(6) {
        0 => of_source.clone(),
        1 | 2 => all.into(),
        3 => all.into_iter().chain(["A".to_string()]).collect(),
        4 => all[random.below(3) as usize..].iter().cloned().collect(),
        _ => some_names(random),
    }
}

fn any_set(random: &mut Random, names: &[String], there: u32) -> AttrSetTy {
    let mut attrs = AttrSetTy::new();
    for _ in 0..random.below(4).min(names.len() as u32) {
        let (ty, optional) = (at(random.below(there)), random.below(2) == 0);
        attrs
            .fields
            .insert(one_of(random, names), Field { ty, optional });
    }
    attrs.dyn_ty = (random.below(3) == 0).then(|| at(random.below(there)));
    attrs.open = random.below(2) == 0;
    attrs
}

/// A node over so many others, of every kind.
pub fn any_node(random: &mut Random, names: &[String], there: u32) -> OutputTy {
    let leaf = there == 0 || random.below(5) == 0;
    let named = if names.is_empty() { 6 } else { 9 };
    match random.below(if leaf { 3 } else { named }) {
        0 => one_of(random, &[OutputTy::Bottom, OutputTy::Top]),
        1 => OutputTy::Primitive(one_of(random, &PrimitiveTy::ALL)),
        2 => OutputTy::TyVar(random.below(4)),
        3 => {
            let of = one_of(random, &[OutputTy::List, OutputTy::Neg]);
            of(at(random.below(there)))
        }
        4 => OutputTy::Lambda {
            param: at(random.below(there)),
            body: at(random.below(there)),
        },
        5 => {
            let of = one_of(random, &[OutputTy::Union, OutputTy::Intersection]);
            let count = 1 + random.below(4);
            of((0..count).map(|_| at(random.below(there))).collect())
        }
        6 => OutputTy::Named(one_of(random, names), at(random.below(there))),
        _ => OutputTy::AttrSet(any_set(random, names, there)),
    }
}

/// Random nodes, each once.
fn any_nodes(
    random: &mut Random,
    names: &BTreeSet<String>,
    least: u32,
    most: u32,
) -> Vec<OutputTy> {
    let names: Vec<String> = names.iter().cloned().collect();
    let mut nodes = Vec::new();
    for _ in 0..least + random.below(most) {
        let node = any_node(random, &names, nodes.len() as u32);
        if !nodes.contains(&node) {
            nodes.push(node);
        }
    }
    nodes
}

pub fn arena(names: &BTreeSet<String>, nodes: &[OutputTy]) -> TypeArena {
    TypeArena::from_nodes(Names::new(names).unwrap(), nodes.to_vec()).unwrap()
}

/// An import with what must become of it.
struct Case {
    source: TypeArena,
    root: TyRef,
    before: TypeArena,
    /// How many words and starts the target has to spare.
    spare: (usize, usize),
    answer: Result<TyRef, u32>,
    after: TypeArena,
    /// How many nodes the type has.
    nodes: usize,
}

impl Case {
    fn any(random: &mut Random) -> Case {
        let names = some_names(random);
        let target_names = target_names(random, &names);
        let nodes = any_nodes(random, &names, 1, 30);
        let mut by_hand = Simple {
            source: &nodes,
            target: any_nodes(random, &target_names, 0, 20),
            spare: (1_000, 1_000),
            met: HashMap::new(),
        };
        by_hand.import_parts(random, &target_names);
        let before = arena(&target_names, &by_hand.target);
        let spare = one_of(random, &[(0, 0), (30, 3), (9, 8), (400, 100), (400, 100)]);
        by_hand.spare = spare;
        // Most later nodes have children.
        let last = nodes.len() as u32 - 1;
        let root = at(last - random.below(8).min(last));
        let answer = by_hand.answer(root, &target_names);
        let after = match answer {
            Ok(_) => arena(&target_names, &by_hand.target),
            Err(_) => before.clone(),
        };
        Case {
            source: arena(&names, &nodes),
            root,
            before,
            spare,
            answer,
            after,
            nodes: by_hand.met.len(),
        }
    }

    fn by_the_raw_call(&self) {
        let source = Lent::new(self.source.words(), (7, 3));
        let mut target = Lent::new(self.before.words(), self.spare);
        let expected = target.with(&self.after.words()[target.used..]);
        let of = source.clone();
        let [table, target_table] = [&self.source, &self.before].map(|t| t.names().table());
        let root = self.root.into_raw();
        let told = raw(table, &source, root, target_table, &mut target);
        let answer = self
            .answer
            .map_or_else(|number| [number, 77], |ty| [0, ty.into_raw()]);
        assert_eq!(told, answer);
        assert_eq!(target, expected);
        assert_eq!(source, of, "it is only read");
    }

    fn by_the_crate(&self) {
        let words = self.before.words().len() + self.spare.0;
        let nodes = self.before.len() + self.spare.1;
        let names = self.before.names().clone();
        let mut target = TypeArena::with_capacity(names, words, nodes).unwrap();
        for node in self.before.nodes() {
            put(&mut target, node);
        }
        let lent = target.clone();
        match self.answer {
            Ok(ty) => assert_eq!(import(&mut target, &self.source, self.root), ty),
            Err(number) => {
                let refused = import_from_arena(&mut target, &self.source, self.root);
                assert_eq!(refused.map_err(Refusal::number), Err(number));
                assert!(untouched(&target, &lent));
            }
        }
        assert!(target == self.after);
    }

    fn kind(&self) -> &'static str {
        match (self.answer, self.after.len() - self.before.len()) {
            (Ok(_), 0) => "nothing added",
            (Ok(_), added) if added == self.nodes => "all added",
            (Ok(_), _) => "some added",
            (Err(7), _) => "no room",
            (Err(_), _) => "a name lacking",
        }
    }
}

#[test]
fn random_types() {
    let mut random = Random::new(4);
    let mut met = HashMap::new();
    for _ in 0..1_500 {
        let case = Case::any(&mut random);
        case.by_the_raw_call();
        case.by_the_crate();
        *met.entry(case.kind()).or_insert(0) += 1;
    }
    let often = met.values().all(|&often| often > 60);
    assert!(met.len() == 5 && often, "{met:?}");
}
