//! Writes cases of operation 27 into the current folder and says how many nodes and values each has; `compare/bench-operations`
//! measures them. `drive` is a fix beside the type of a drive; the others are types that fill an arena, beside fixes of 4,096 words
//! or nearly, which take many steps. The last node is the type, the last value the fix.

use std::fs;

use reference::case::{Case, Host};
use reference::fix::{Value, VALUES};
use reference::memory::Memory;
use reference::node::{Field, Node};
use reference::{MEMBERS, NODES, WORDS};

type Fix = (Vec<Node>, Vec<Value>);

/// An arena of full size, under names that are numbers.
fn case((nodes, values): &Fix) -> Case {
    let empty = Memory {
        words: vec![0; WORDS],
        starts: vec![0; NODES],
        ..Memory::default()
    };
    let name = |number: usize| format!("\u{2}{number:02}").into_bytes();
    let host = Host {
        table: (0..MEMBERS).flat_map(name).collect(),
        memory: empty.holding(nodes),
    };
    let words = values.iter().flat_map(Value::encode).collect();
    Case::Fits(host, nodes.len() as u32 - 1, words)
}

fn ty(fields: &[(u16, u32)]) -> Node {
    let field = |&(name, child)| Field {
        optional: false,
        name,
        child,
    };
    Node::AttrSet(fields.iter().map(field).collect(), None, false)
}

fn set(fields: &[(u16, u32)]) -> Value {
    Value::Set(fields.iter().copied().collect())
}

const INT: Value = Value::Plain(2);
const AN_INT: Node = Node::Primitive(2);
const A_STRING: Node = Node::Primitive(4);

/// The names of the fields of a drive's fix.
const DRIVE: std::ops::Range<u16> = 6..17;

/// A fix has a line, a chainage, two angles, jacks, the head, a target, what was read, notes, a source and a label.
fn drive() -> Fix {
    let mut nodes: Vec<Node> = (0..8).map(Node::Primitive).collect();
    nodes.extend([
        Node::Union(vec![2, 3]),
        ty(&[(0, 7), (1, 7)]),
        Node::Named(20, 9),
        ty(&[(2, 7), (3, 2)]),
        Node::Named(21, 11),
        Node::List(12),
        ty(&[(2, 8), (4, 8), (5, 1)]),
        Node::Named(22, 14),
        Node::Union(vec![4, 0]),
        Node::Named(23, 4),
        Node::Union(vec![17, 5]),
        Node::Union(vec![3, 0]),
        Node::Neg(0),
        Node::Intersection(vec![16, 20]),
        Node::List(3),
        Node::Union(vec![3, 22]),
        Node::AttrSet(vec![], Some(23), false),
        Node::List(16),
        Node::Union(vec![25, 0]),
        Node::Union(vec![6, 0]),
        Node::Named(24, 24),
    ]);
    let children = [18, 7, 19, 3, 13, 15, 10, 28, 26, 27, 21];
    let fields: Vec<(u16, u32)> = DRIVE.zip(children).collect();
    nodes.push(ty(&fields));
    (nodes, of_drive())
}

fn of_drive() -> Vec<Value> {
    let mut values: Vec<Value> = (0..6).map(Value::Plain).collect();
    values.extend([
        INT,
        set(&[(2, 3), (3, 2)]),
        set(&[(2, 2), (3, 6)]),
        set(&[(2, 3), (3, 6)]),
        Value::List(vec![7, 8, 9, 7]),
        set(&[(2, 2), (4, 3), (5, 1)]),
        set(&[(0, 3), (1, 6)]),
        Value::Plain(3),
        Value::List(vec![3, 13, 3]),
        set(&[(30, 13), (31, 14), (32, 3)]),
        Value::Plain(4),
        Value::List(vec![4, 0, 16]),
        Value::Plain(4),
    ]);
    let children = [4, 3, 0, 13, 10, 11, 12, 15, 17, 18, 16];
    let fields: Vec<(u16, u32)> = DRIVE.zip(children).collect();
    values.push(set(&fields));
    values
}

/// Sets of three fields, the third of which is the set before: types and values.
fn nested() -> Fix {
    let over = |before| [(0, 0), (1, 0), (2, before)];
    let sets = (1..NODES as u32).map(|n| ty(&over(n - 1)));
    let values = (1..VALUES as u32).map(|n| set(&over(n - 1)));
    (
        [AN_INT].into_iter().chain(sets).collect(),
        [INT].into_iter().chain(values).collect(),
    )
}

/// The list of all that these types take, in unions of 64, or any.
fn listed(mut nodes: Vec<Node>, types: Vec<u32>) -> Vec<Node> {
    let any = nodes.len() as u32;
    nodes.push(Node::Top);
    let unions = types.chunks(MEMBERS);
    nodes.extend(unions.map(|some| Node::Union(some.to_vec())));
    let last = nodes.len() as u32;
    nodes.push(Node::Union((any + 1..last).chain([any]).collect()));
    nodes.push(Node::List(last));
    nodes
}

/// A list of so many times this set, over an int.
fn repeated(value: Value, count: u32) -> Vec<Value> {
    let mut values = vec![value; count as usize];
    values.insert(0, INT);
    values.push(Value::List((1..=count).collect()));
    values
}

/// Sets of two fields, each of which takes the first and not the second.
fn unions() -> Fix {
    const SETS: u32 = 3_902;
    let mut nodes = vec![AN_INT, A_STRING];
    for inner in [0, 1] {
        nodes.extend((0..64).map(|name| Node::Named(name, inner)));
    }
    let first = nodes.len() as u32;
    nodes.extend((0..SETS).map(|n| ty(&[(0, 2 + n % 64), (1, 66 + n / 64)])));
    let types = (first..first + SETS).collect();
    let value = set(&[(0, 0), (1, 0)]);
    (listed(nodes, types), repeated(value, VALUES as u32 - 2))
}

/// Sets of 64 fields, each of which takes all but the last.
fn wide() -> Fix {
    const SETS: u32 = 240;
    let mut nodes = vec![AN_INT, A_STRING, Node::Named(0, 0)];
    let first = nodes.len() as u32;
    for n in 0..SETS {
        let child = |name: u16| {
            if name == 63 {
                1
            } else {
                2 * (n >> name.min(16) & 1)
            }
        };
        let fields: Vec<(u16, u32)> = (0..64).map(|name| (name, child(name))).collect();
        nodes.push(ty(&fields));
    }
    let types = (first..first + SETS).collect();
    let fields: Vec<(u16, u32)> = (0..64).map(|name| (name, 0)).collect();
    (listed(nodes, types), repeated(set(&fields), 62))
}

fn main() {
    for (path, fix) in [
        ("drive", drive()),
        ("nested", nested()),
        ("unions", unions()),
        ("wide", wide()),
    ] {
        println!("{path}\t{}\t{}", fix.0.len(), fix.1.len());
        fs::write(path, case(&fix).write()).expect("can't write a file");
    }
}
