//! Names that the manual writes in quotes, names that are nearly so, and types that print many of them.

use reference::node::{Field, Node};
use reference::spelling::{self, RESERVED};
use reference::MEMBERS;

use crate::build::{names_by, Build};
use crate::random::Random;
use crate::shapes::{leaves, Shape};

/// What strings are made of: bytes that have a meaning there alone or with the next one, and some that have none.
const PIECES: [&[u8]; 14] = [
    b" ", b"\"", b"\\", b"$", b"${", b"$${", b"\\${", b"$$", b"{", b"}", b"'", b"\\n", b"x", b"a-1",
];

const LETTERS: &[u8] = b"abcdefghijklmnopqrstuvwxyzABCDEFGHIJKLMNOPQRSTUVWXYZ_";
const LATER: &[u8] = b"azAZ_'-059";

fn identifier(random: &mut Random) -> Vec<u8> {
    let mut name = vec![random.pick(LETTERS)];
    for _ in 0..random.below(6) {
        name.push(random.pick(&[LETTERS, LATER].concat()));
    }
    name
}

/// Words of the language that aren't reserved.
pub const FREE: [&str; 6] = ["null", "true", "false", "import", "builtins", "throw"];

/// A reserved word, the same with one letter more or less or in another case, or a word that isn't reserved.
fn reserved(random: &mut Random) -> Vec<u8> {
    let mut word = random.pick(&RESERVED).as_bytes().to_vec();
    match random.below(8) {
        0 => word.push(random.pick(LATER)),
        1 => word.insert(0, random.pick(LATER)),
        2 => drop(word.pop()),
        3 => word[0].make_ascii_uppercase(),
        4 => word = random.pick(&FREE).into(),
        _ => {}
    }
    word
}

/// An identifier but for one byte, anywhere: any, a space, or one beside those that an identifier may have.
fn nearly_identifier(random: &mut Random) -> Vec<u8> {
    let mut name = identifier(random);
    let byte = match random.percent(50) {
        true => random.pick(b"    @[`{/:&(,.^"),
        false => random.within(32..=126) as u8,
    };
    name.insert(random.within(0..=name.len()), byte);
    name
}

/// So many pieces, of which 64 bytes are kept.
fn pieces(random: &mut Random, count: usize, from: &[&[u8]]) -> Vec<u8> {
    let all = (0..count).flat_map(|_| random.pick(from));
    all.copied().take(64).collect()
}

pub fn name(random: &mut Random) -> Vec<u8> {
    match random.below(10) {
        0..3 => reserved(random),
        3 => identifier(random),
        // A first byte that an identifier has only further on.
        4 => [vec![random.pick(b"0179'-")], identifier(random)].concat(),
        5 => nearly_identifier(random),
        6 | 7 => {
            let count = random.within(1..=6);
            pieces(random, count, &PIECES)
        }
        8 => pieces(random, 64, &PIECES),
        // Each byte needs a backslash.
        _ => pieces(random, 64, &[b"\"", b"\\"]),
    }
}

/// A type whose root is a set with all names, over sets and aliases that have some.
pub fn shape(random: &mut Random) -> Shape {
    let count = match random.below(20) {
        0 => MEMBERS,
        _ => random.within(1..=8),
    };
    let mut arena = Build::named(names_by(random, count, name));
    leaves(&mut arena, random);
    for _ in 0..random.within(1..=5) {
        let kind = random.pick(&[5, 6, 7, 9, 9, 9]);
        let node = arena.node(random, kind);
        arena.put(node);
    }
    let fields = (0..count).map(|name| Field {
        optional: random.percent(30),
        name: name as u16,
        child: arena.child(random),
    });
    let fields = fields.collect();
    let root = arena.put(Node::AttrSet(fields, None, random.percent(20)));
    Shape { arena, root }
}

/// How many bytes a name takes in a text: bare, and as the manual writes it.
pub const LENGTHS: [fn(&str) -> usize; 2] = [str::len, |name| spelling::spelled(name).len()];

/// A type over two names whose text has so many bytes, where a name takes `length` of them.
pub fn long(two: Vec<Vec<u8>>, wanted: usize, length: fn(&str) -> usize) -> Shape {
    let mut arena = Build::named(two);
    let lengths: Vec<usize> = arena.texts().iter().map(|name| length(name)).collect();
    let int = arena.put(Node::Primitive(2));
    let doubled = |bytes| 2 * bytes + lengths[0] + lengths[1] + "{ : , :  }".len();
    // The list round it all takes two bytes.
    let most = wanted - 2;
    let mut levels = vec![(arena.put(Node::Named(0, int)), lengths[0])];
    let (mut root, mut bytes) = levels[0];
    while doubled(bytes) <= most {
        root = arena.put(twice(root));
        bytes = doubled(bytes);
        levels.push((root, bytes));
    }
    for (level, more) in levels.into_iter().rev() {
        while bytes + " -> ".len() + more <= most {
            root = arena.put(Node::Lambda(level, root));
            bytes += " -> ".len() + more;
        }
    }
    root = arena.put(Node::List(root));
    if (most - bytes) % 2 == 1 {
        root = arena.put(Node::Neg(root));
    }
    for _ in 0..(most - bytes) / 2 {
        root = arena.put(Node::List(root));
    }
    Shape { arena, root }
}

/// The set that has this under both names.
fn twice(child: u32) -> Node {
    let field = |name| Field {
        optional: false,
        name,
        child,
    };
    Node::AttrSet([0, 1].map(field).into(), None, false)
}

#[cfg(test)]
mod tests {
    use reference::rust::Rust;
    use reference::TEXT;

    use super::*;

    #[test]
    fn long_texts() {
        let mut random = Random::new(1, 23, 0);
        for _ in 0..20 {
            let two = names_by(&mut random, 2, name);
            let wanted = TEXT - random.below(300);
            for (length, print) in LENGTHS.into_iter().zip([Rust::display, Rust::display_nix]) {
                let Shape { arena, root } = long(two.clone(), wanted, length);
                let text = print(&Rust::holding(&arena.nodes, &arena.texts()), root, TEXT);
                assert_eq!(text.unwrap().len(), wanted, "{two:?}");
            }
        }
    }
}
