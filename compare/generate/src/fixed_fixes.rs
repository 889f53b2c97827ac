//! Fixes beside types: each clause both ways, each bit of small fixes, each limit, and with all faults at once.

use reference::case::Case;
use reference::fix::{Value, VALUES};
use reference::layout::NEW;
use reference::node::{Field, Node};
use reference::{MEMBERS, NODES, WORDS};

use crate::build::Build;
use crate::fixed::{numbered, over};
use crate::fixed_imports::exact;
use crate::fixes::{padded, words};
use crate::short;

const INT: Value = Value::Plain(2);
const STRING: Value = Value::Plain(4);
/// The nodes of `leaves` that take these two.
const AN_INT: u32 = 4;
const A_STRING: u32 = 6;
const ANY: u32 = 1;

pub fn cases() -> Vec<Case> {
    let mut cases = by_clause();
    cases.extend(by_bit());
    cases.extend(by_faults());
    cases.extend(of_variables());
    cases.extend(of_many_values());
    cases.extend(of_long_lists());
    cases.extend(of_many_names());
    cases.extend(of_deep_types());
    cases.extend(past_the_limits());
    cases
}

fn fits((arena, root): &(Build, u32), values: &[Value]) -> Case {
    Case::Fits(exact(arena), *root, words(values))
}

fn field(optional: bool, name: u16, child: u32) -> Field {
    Field {
        optional,
        name,
        child,
    }
}

fn set(fields: &[(u16, u32)]) -> Value {
    Value::Set(fields.iter().copied().collect())
}

/// `never`, `any` and the primitives, under so many names.
fn leaves(names: usize) -> Build {
    let mut arena = numbered(names);
    arena.put(Node::Bottom);
    arena.put(Node::Top);
    for code in 0..8 {
        arena.put(Node::Primitive(code));
    }
    arena
}

/// The leaves, every kind of node over them and over lists, and sets of an int and a string: each must be there, may be, or isn't
/// named, with every dynamic part and none, open and closed.
fn every_clause() -> Build {
    let mut arena = leaves(3);
    let [ints, strings] = [AN_INT, A_STRING].map(|of| arena.put(Node::List(of)));
    for of in [0, ANY, AN_INT, ints] {
        arena.put(Node::List(of));
        arena.put(Node::Lambda(of, ANY));
        arena.put(Node::Named(1, of));
        let neg = arena.put(Node::Neg(of));
        arena.put(Node::Neg(neg));
    }
    let pairs = [[4, 6], [6, 4], [4, 9], [0, 4], [4, 1], [5, 5]];
    for members in pairs.into_iter().chain([[ints, strings], [ints, 4]]) {
        arena.put(Node::Union(members.to_vec()));
        let both = arena.put(Node::Intersection(members.to_vec()));
        arena.put(Node::Neg(both));
    }
    for node in short::sets([AN_INT, A_STRING], &[None, Some(AN_INT), Some(0)]) {
        arena.put(node);
    }
    arena
}

/// Each of these nodes beside a value of each kind, lists of ints, strings and lists, and all sets of ints and strings under three
/// names.
fn by_clause() -> Vec<Case> {
    let arena = every_clause();
    let before = [INT, STRING, Value::List(vec![0])];
    let lists = [
        &[][..],
        &[0],
        &[1],
        &[0, 0],
        &[0, 1],
        &[1, 0],
        &[2],
        &[2, 1],
    ];
    let mut values: Vec<Value> = (0..6).map(Value::Plain).collect();
    values.extend(lists.map(|elements| Value::List(elements.to_vec())));
    for chosen in 0..27 {
        let fields = [chosen % 3, chosen / 3 % 3, chosen / 9].into_iter();
        let fields = (0..).zip(fields).filter(|(_, how)| *how < 2);
        values.push(Value::Set(fields.collect()));
    }
    let mut cases = Vec::new();
    for root in 0..arena.nodes.len() as u32 {
        for value in &values {
            let values = [&before[..], &[value.clone()]].concat();
            cases.push(Case::Fits(exact(&arena), root, words(&values)));
        }
    }
    cases
}

/// Small fixes, with a type that each fits.
fn small() -> Vec<((Build, u32), Vec<u32>)> {
    let both = vec![field(false, 0, AN_INT), field(false, 1, 11)];
    let first = vec![
        Node::Union(vec![2, AN_INT]),
        Node::List(10),
        Node::AttrSet(both, None, false),
    ];
    let second = vec![
        Node::AttrSet(vec![field(false, 2, A_STRING)], Some(3), false),
        Node::Union(vec![A_STRING, 10]),
        Node::List(11),
    ];
    let [list, of_sets] = [&[1, 0][..], &[2, 1, 2]].map(|of| Value::List(of.to_vec()));
    let first_fix = [INT, Value::Plain(0), list, set(&[(0, 0), (1, 2)])];
    let second_fix = [Value::Plain(1), STRING, set(&[(1, 0), (2, 1)]), of_sets];
    let beside = |nodes, fix: &[Value]| (over(leaves(3), nodes), words(fix));
    vec![beside(first, &first_fix), beside(second, &second_fix)]
}

/// Each of the small fixes as it is, with every bit turned, cut at every word, and with a word more, beside its type, `Neg` of it
/// and any.
fn by_bit() -> Vec<Case> {
    let mut cases = Vec::new();
    for ((mut arena, root), fix) in small() {
        let neg = arena.put(Node::Neg(root));
        let mut all = vec![fix.clone()];
        for bit in 0..32 * fix.len() {
            let mut turned = fix.clone();
            turned[bit / 32] ^= 1 << (bit % 32);
            all.push(turned);
        }
        all.extend((0..fix.len()).map(|end| fix[..end].to_vec()));
        let more = [0, 1, 1 << 15, 6 << 28, 6 << 28 | 1, 7 << 28, 8 << 28];
        all.extend(more.map(|word| [&fix[..], &[word]].concat()));
        for root in [root, neg, ANY] {
            let case = |fix: &Vec<u32>| Case::Fits(exact(&arena), root, fix.clone());
            cases.extend(all.iter().map(case));
        }
    }
    cases
}

/// All faults at once, and each without some of the others: the table, the arena, a root that isn't there, a fix that breaks the
/// layout, and a variable.
fn by_faults() -> Vec<Case> {
    let mut arena = leaves(1);
    let variable = arena.var(0);
    let case = |faults: u32| {
        let is = |fault: u32| faults >> fault & 1 == 1;
        let mut host = exact(&arena);
        if is(0) {
            host.table.push(0);
        }
        if is(1) {
            host.memory.nodes += 1;
        }
        let root = if is(4) { variable } else { AN_INT };
        let fix = if is(3) { vec![] } else { words(&[INT]) };
        Case::Fits(host, if is(2) { variable + 2 } else { root }, fix)
    };
    (0..1 << 5).map(case).collect()
}

/// A variable at every place of every kind of node, also where the answer is known without it, and types beside it.
fn of_variables() -> Vec<Case> {
    let mut arena = leaves(2);
    let variable = arena.var(u32::MAX);
    // The node behind the variable is the list of it.
    for child in [variable, variable + 1, ANY] {
        arena.put(Node::List(child));
        arena.put(Node::Lambda(child, 0));
        arena.put(Node::Lambda(0, child));
        arena.put(Node::Union(vec![ANY, child]));
        arena.put(Node::Intersection(vec![0, child]));
        arena.put(Node::Named(1, child));
        arena.put(Node::Neg(child));
        arena.put(Node::AttrSet(vec![field(true, 0, child)], None, true));
        arena.put(Node::AttrSet(vec![field(false, 0, 0)], Some(child), true));
    }
    let fixes = [vec![INT], vec![Value::List(vec![])], vec![set(&[])]];
    let mut cases = Vec::new();
    // One past the last, too.
    for root in 0..=arena.nodes.len() as u32 {
        let case = |values: &Vec<Value>| Case::Fits(exact(&arena), root, words(values));
        cases.extend(fixes.iter().map(case));
    }
    cases
}

/// Fixes of 1,023 to 1,025 values and of many more: repeats that nothing leads to, lists in one another; and children that are the
/// first value, the last before, the list itself and later ones.
fn of_many_values() -> Vec<Case> {
    let ints = over(leaves(1), vec![Node::List(AN_INT)]);
    let any = (ints.0.clone(), ANY);
    let mut cases = Vec::new();
    for count in [VALUES - 1, VALUES, VALUES + 1, 4 * VALUES + 1] {
        let last = count as u32 - 1;
        let children = [0, last - 1, last, last + 1, 4_095];
        for child in children.into_iter().filter(|child| child >> 12 == 0) {
            let values = padded(vec![INT, INT, list_of(child)], count);
            cases.extend([&ints, &any].map(|ty| fits(ty, &values)));
        }
        cases.push(fits(&any, &nested(count, list_of)));
    }
    // The first value has itself as a child, and nothing else leads to it.
    for first in [list_of(0), set(&[(0, 0)])] {
        cases.push(fits(&any, &[first, INT]));
    }
    cases
}

/// So many values: an int, in one of these, in one of these.
fn nested(count: usize, over: impl Fn(u32) -> Value) -> Vec<Value> {
    let others = (0..count as u32 - 1).map(over);
    [INT].into_iter().chain(others).collect()
}

fn list_of(child: u32) -> Value {
    Value::List(vec![child])
}

/// Lists of 65,535 children, one of which may be another; such a list without its last word; three of them; and a list of all
/// values before it.
fn of_long_lists() -> Vec<Case> {
    let ints = over(leaves(1), vec![Node::List(AN_INT)]);
    let long = |last: u32| {
        let children = [vec![0; 0xfffe], vec![last]].concat();
        vec![INT, STRING, Value::List(children)]
    };
    let mut cases: Vec<Case> = [0, 1].map(|last| fits(&ints, &long(last))).into();
    let mut short = words(&long(0));
    short.pop();
    cases.push(Case::Fits(exact(&ints.0), ints.1, short));
    let three = [long(0), vec![long(0)[2].clone(); 2]].concat();
    cases.push(fits(&ints, &three));
    for other in [INT, STRING] {
        let mut values = vec![INT; VALUES - 1];
        values[600] = other;
        values.push(Value::List((0..VALUES as u32 - 1).collect()));
        cases.push(fits(&ints, &values));
    }
    cases
}

/// Sets under full tables: the last name and the next, in tables that have it and that haven't; sets of all 4,096 names, or all but
/// one, beside types that name 64 of them and take the others or not.
fn of_many_names() -> Vec<Case> {
    let last = NEW.names as u16 - 1;
    let mut cases = Vec::new();
    for names in [NEW.names - 1, NEW.names] {
        let any = (leaves(names), ANY);
        for name in [last - 1, last, last + 1, u16::MAX] {
            cases.push(fits(&any, &[INT, set(&[(0, 0), (name, 0)])]));
        }
    }
    let all = |without: u16, string: u16| {
        let names = (0..=last).filter(|&name| name != without);
        let fields = names.map(|name| (name, u32::from(name == string)));
        vec![INT, STRING, Value::Set(fields.collect())]
    };
    for (dynamic, open) in [(None, true), (None, false), (Some(AN_INT), false)] {
        let every = (0..MEMBERS).map(|at| field(at % 2 == 0, (at * 65) as u16, AN_INT));
        let fields = every.collect();
        let ty = over(
            leaves(NEW.names),
            vec![Node::AttrSet(fields, dynamic, open)],
        );
        // A name of the type that must be there, one that may be, and one that isn't the type's; each lacking or a string.
        for name in [63 * 65, 62 * 65, 1] {
            cases.push(fits(&ty, &all(name, u16::MAX)));
            cases.push(fits(&ty, &all(u16::MAX, name)));
        }
    }
    cases
}

/// 4,096 nodes one on another, of each kind, and fixes as deep as they may be.
fn of_deep_types() -> Vec<Case> {
    let steps: [fn(u32) -> Node; 8] = [
        Node::Neg,
        Node::List,
        |child| Node::Named(0, child),
        |child| Node::Union(vec![0, child]),
        |child| Node::Union(vec![child, child]),
        |child| Node::Intersection(vec![child, ANY]),
        |child| Node::AttrSet(vec![], Some(child), false),
        |child| Node::AttrSet(vec![field(false, 0, child)], None, true),
    ];
    let sets = nested(VALUES, |child| set(&[(0, child)]));
    let fixes = [vec![INT], nested(VALUES, list_of), sets];
    let mut cases = Vec::new();
    for step in steps {
        let mut arena = leaves(1);
        let mut roots = vec![AN_INT];
        while arena.nodes.len() < NODES {
            roots.push(arena.put(step(roots[roots.len() - 1])));
        }
        // The second has as many nodes over the int as the fixes have values over theirs.
        for root in [roots[roots.len() - 1], roots[VALUES - 1]] {
            let ty = (arena.clone(), root);
            cases.extend(fixes.iter().map(|fix| fits(&ty, fix)));
        }
    }
    cases
}

/// As many words and starts as may be lent, and one more of either.
fn past_the_limits() -> Vec<Case> {
    let sizes = [(WORDS, NODES), (WORDS + 1, NODES), (WORDS, NODES + 1)];
    let lent = sizes.map(|(words, starts)| leaves(1).host(words, starts));
    lent.map(|host| Case::Fits(host, AN_INT, words(&[INT])))
        .into()
}
