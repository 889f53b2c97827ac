//! A sound arena with its names, built node by node.

use std::collections::{BTreeSet, HashMap};

use reference::case::Host;
use reference::layout::Layout;
use reference::memory::Memory;
use reference::node::{Field, Node};
use reference::table::{LENGTH, TABLE};
use reference::{NODES, WORDS};

use crate::random::Random;
use crate::spelled;

#[derive(Clone, Default)]
pub struct Build {
    pub names: Vec<Vec<u8>>,
    pub nodes: Vec<Node>,
    pub words: usize,
    numbers: HashMap<Node, u32>,
}

impl Build {
    /// No node yet.
    pub fn named(names: Vec<Vec<u8>>) -> Build {
        Build {
            names,
            ..Build::default()
        }
    }

    /// The number of a node, which is stored if it isn't there and fits. If it doesn't fit, the
    /// newest node stands in for it.
    pub fn put(&mut self, node: Node) -> u32 {
        if let Some(&number) = self.numbers.get(&node) {
            return number;
        }
        if self.nodes.len() == NODES || self.words + node.size() > WORDS {
            return self.nodes.len() as u32 - 1;
        }
        let number = self.nodes.len() as u32;
        self.words += node.size();
        self.numbers.insert(node.clone(), number);
        self.nodes.push(node);
        number
    }

    pub fn var(&mut self, index: u32) -> u32 {
        self.put(Node::TyVar(index))
    }

    /// The names as texts.
    pub fn texts(&self) -> Vec<String> {
        let text = |name: &Vec<u8>| String::from_utf8(name.clone()).unwrap();
        self.names.iter().map(text).collect()
    }

    pub fn table(&self) -> Vec<u8> {
        table(&self.names)
    }

    /// The sheet of this layout, which may be one that is refused.
    pub fn sheet(&self, layout: Layout, root: u32) -> Vec<u8> {
        let words = self.nodes.iter().map(|node| node.encode_in(layout));
        sheet(&self.names, &words.collect::<Vec<_>>(), root)
    }

    /// The arena in so many lent words and starts; both must be enough.
    pub fn host(&self, words: usize, starts: usize) -> Host {
        let empty = Memory {
            words: vec![0; words],
            starts: vec![0; starts],
            ..Memory::default()
        };
        Host {
            table: self.table(),
            memory: empty.holding(&self.nodes),
        }
    }

    pub fn any(&self, random: &mut Random) -> u32 {
        random.below(self.nodes.len()) as u32
    }

    /// A child for the next node: mostly a recent one, so that types grow deep as well as wide.
    pub fn child(&self, random: &mut Random) -> u32 {
        let nodes = self.nodes.len();
        let back = if random.percent(60) {
            nodes.min(4)
        } else {
            nodes
        };
        (nodes - 1 - random.below(back)) as u32
    }

    pub fn children(&self, random: &mut Random, count: usize) -> Vec<u32> {
        (0..count).map(|_| self.child(random)).collect()
    }

    pub fn fields(&self, random: &mut Random, most: usize) -> Vec<Field> {
        let count = random.within(0..=most.min(self.names.len()));
        let mut names = BTreeSet::new();
        while names.len() < count {
            names.insert(random.below(self.names.len()) as u16);
        }
        let mut field = |name| Field {
            optional: random.percent(40),
            name,
            child: self.child(random),
        };
        names.into_iter().map(&mut field).collect()
    }

    /// A node of this kind over the nodes that there are; without a name, kind 9 gives a list.
    pub fn node(&self, random: &mut Random, kind: usize) -> Node {
        match kind {
            0 => Node::Bottom,
            1 => Node::Top,
            2 => Node::Primitive(random.below(8) as u32),
            3 => Node::TyVar(random.word()),
            _ if self.nodes.is_empty() => Node::TyVar(random.below(4) as u32),
            5 => Node::Lambda(self.child(random), self.child(random)),
            6 => {
                let most = if random.percent(5) { 64 } else { 4 };
                let fields = self.fields(random, most);
                let dynamic = random.percent(40).then(|| self.child(random));
                Node::AttrSet(fields, dynamic, random.percent(40))
            }
            7 | 8 => {
                let count = if random.percent(3) {
                    64
                } else {
                    random.within(1..=4)
                };
                let members = self.children(random, count);
                if kind == 7 {
                    Node::Union(members)
                } else {
                    Node::Intersection(members)
                }
            }
            9 if !self.names.is_empty() => {
                let name = random.below(self.names.len()) as u16;
                Node::Named(name, self.child(random))
            }
            10 => Node::Neg(self.child(random)),
            _ => Node::List(self.child(random)),
        }
    }
}

/// A length byte before each name.
pub fn table(names: &[Vec<u8>]) -> Vec<u8> {
    let entry = |name: &Vec<u8>| [vec![name.len() as u8], name.clone()].concat();
    names.iter().flat_map(entry).collect()
}

/// The bytes of a sheet with these names and words of nodes, whatever they are.
pub fn sheet(names: &[Vec<u8>], nodes: &[Vec<u32>], root: u32) -> Vec<u8> {
    let counts = [names.len() as u16, nodes.len() as u16, root as u16];
    let opening = counts.into_iter().flat_map(u16::to_be_bytes);
    let words = nodes.concat().into_iter().flat_map(u32::to_be_bytes);
    opening.chain(table(names)).chain(words).collect()
}

/// So many names of one style, in order. Where they are very many they are short enough for a table.
pub fn names(random: &mut Random, count: usize) -> Vec<Vec<u8>> {
    let style = random.below(4);
    let most = LENGTH.min(TABLE / count.max(1) - 1);
    let name = |random: &mut Random| match style {
        // Identifiers, mostly short.
        0 => (0..random.within(1..=5))
            .map(|_| random.pick(b"abcxyz_19"))
            .collect(),
        // Any printable bytes, any length.
        1 => printable(random, 1..=most),
        // A long common front.
        2 => {
            let front = vec![b'n'; random.within(0..=most - 6)];
            [front, printable(random, 1..=6)].concat()
        }
        _ => spelled::name(random),
    };
    names_by(random, count, |random| {
        let mut name = name(random);
        name.truncate(most);
        name
    })
}

/// Names whose table has so many bytes: all of 64, but for one that takes the rest.
pub fn names_of_bytes(random: &mut Random, bytes: usize) -> Vec<Vec<u8>> {
    let (full, rest) = (bytes / (1 + LENGTH), bytes % (1 + LENGTH));
    let mut names = names_by(random, full, |random| printable(random, LENGTH..=LENGTH));
    names.push(printable(random, rest - 1..=rest - 1));
    names.sort();
    names
}

/// So many different names, each made by this, in order.
pub fn names_by(
    random: &mut Random,
    count: usize,
    name: impl Fn(&mut Random) -> Vec<u8>,
) -> Vec<Vec<u8>> {
    let mut names = BTreeSet::new();
    while names.len() < count {
        names.insert(name(random));
    }
    names.into_iter().collect()
}

pub fn printable(random: &mut Random, length: std::ops::RangeInclusive<usize>) -> Vec<u8> {
    let length = random.within(length);
    (0..length).map(|_| random.within(32..=126) as u8).collect()
}
