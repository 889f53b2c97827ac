//! A text sought among names, through the crate and by the raw call, beside a count of the names that come before it.

use std::collections::BTreeSet;

use coombtray::{ffi, Names, OutputTy, Refusal, TyRef, TypeArena};

use crate::build::*;
use crate::names::as_many_as_can_be;
use crate::random::Random;

/// The number of the name that is the text, or how many come before it. The names differ, in any order.
fn counted(names: &[String], text: &[u8]) -> Result<u32, u32> {
    let before = names.iter().filter(|name| name.as_bytes() < text).count() as u32;
    match names.iter().any(|name| name.as_bytes() == text) {
        true => Ok(before),
        false => Err(before),
    }
}

/// The raw call's answer with `found` and `place`, which were 77 and 78.
pub fn raw_find(table: &[u8], text: &[u8]) -> (u32, u32, u32) {
    let (mut found, mut place) = (77, 78);
    // SAFETY: the table and the text live through the call, and so do the two numbers.
    let answer = unsafe {
        ffi::lang_ty_find_name(
            table.as_ptr(),
            table.len(),
            text.as_ptr(),
            text.len(),
            &mut found,
            &mut place,
        )
    };
    (answer, found, place)
}

/// Names in an order of no meaning, the crate's table of them, and one made here.
struct Sought {
    texts: Vec<String>,
    names: Names,
    table: Vec<u8>,
}

impl Sought {
    fn new(texts: Vec<String>) -> Sought {
        let sorted: BTreeSet<&[u8]> = texts.iter().map(|text| text.as_bytes()).collect();
        let one = |text: &&[u8]| [&[text.len() as u8], *text].concat();
        let table: Vec<u8> = sorted.iter().flat_map(one).collect();
        let names = Names::new(&texts).unwrap();
        assert_eq!(names.table(), table);
        Sought {
            texts,
            names,
            table,
        }
    }

    /// Seeks a text by both ways, and gives what both say.
    fn find(&self, text: &[u8]) -> Result<u32, u32> {
        let place = counted(&self.texts, text);
        assert_eq!(self.names.find(text), place, "{text:?} in {:?}", self.table);
        let told = match place {
            Ok(number) => (0, 1, number),
            Err(before) => (0, 0, before),
        };
        let lent = text.to_vec();
        assert_eq!(raw_find(&self.table, &lent), told, "{text:?}");
        place
    }

    /// Seeks a name, then what is left without its last byte, and what it becomes with one more of several.
    fn find_around(&self, name: &str) {
        let name = name.as_bytes();
        assert!(self.find(name).is_ok());
        self.find(&name[..name.len() - 1]).ok();
        for byte in [0, b' ', b'~', 255] {
            self.find(&[name, &[byte]].concat()).ok();
        }
    }
}

fn one_of(random: &mut Random, bytes: &[u8]) -> u8 {
    bytes[random.below(bytes.len() as u32) as usize]
}

/// A name of few different bytes, so that many begin another; some have 63 or 64 bytes.
fn any_name(random: &mut Random) -> String {
    let (front, most) = if random.below(5) == 0 {
        (62, 2)
    } else {
        (0, 4)
    };
    let rest = 1 + random.below(most);
    let rest: String = (0..rest).map(|_| one_of(random, b" ab~") as char).collect();
    "a".repeat(front) + &rest
}

/// Any text: it may be empty, have over 64 bytes, and bytes that no name has.
fn any_text(random: &mut Random) -> Vec<u8> {
    let front = if random.below(5) == 0 { 62 } else { 0 };
    let rest = random.below(6);
    let rest = (0..rest).map(|_| one_of(random, b"\x00\x1f ab~\x7f\x80\xff"));
    [b'a'; 62][..front].iter().copied().chain(rest).collect()
}

#[test]
fn random_names_and_texts() {
    let mut random = Random::new(3);
    let (mut there, mut first, mut between, mut last) = (0, 0, 0, 0);
    for _ in 0..60 {
        let count = random.below(24);
        let names: BTreeSet<String> = (0..count).map(|_| any_name(&mut random)).collect();
        // Not as a set has them: `Names` sorts.
        let sought = Sought::new(names.into_iter().rev().collect());
        let all = sought.texts.len() as u32;
        for name in &sought.texts {
            sought.find_around(name);
        }
        for _ in 0..24 {
            match sought.find(&any_text(&mut random)) {
                Ok(_) => there += 1,
                Err(0) => first += 1,
                Err(before) if before == all => last += 1,
                Err(_) => between += 1,
            }
        }
    }
    let least = [there, first, between, last].into_iter().min();
    assert!(least > Some(30), "{there} {first} {between} {last}");
}

#[test]
fn every_place_among_few_names() {
    // The texts b, d, f and so on, and those before, between and after them.
    for count in 0..13 {
        let names = (0..count).map(|k| char::from(b'b' + 2 * k).to_string());
        let sought = Sought::new(names.collect());
        for k in 0..count {
            let before = u32::from(k);
            assert_eq!(sought.find(&[b'a' + 2 * k]), Err(before));
            assert_eq!(sought.find(&[b'b' + 2 * k]), Ok(before));
        }
        assert_eq!(sought.find(b"~"), Err(count.into()));
        assert_eq!(sought.find(b""), Err(0));
    }
}

#[test]
fn a_full_table() {
    let sought = Sought::new(as_many_as_can_be());
    assert_eq!(sought.names.len(), ffi::NAMES);
    let numbers = [0, 1, 2_047, 2_048, 2_049, 4_094, 4_095].into_iter();
    for number in numbers.chain((3..4_096).step_by(199)) {
        let name = sought.texts[number].as_str();
        assert_eq!(sought.find(name.as_bytes()), Ok(number as u32));
        sought.find_around(name);
    }
    assert_eq!(sought.find(b""), Err(0));
    assert_eq!(sought.find(b"/"), Err(0));
    assert_eq!(sought.find(b"0000"), Err(0));
    assert_eq!(sought.find(b"2047~~~~~~~~~"), Err(2_048));
    assert_eq!(sought.find(b"4096"), Err(4_096));
    assert_eq!(sought.find(&[255; 70_000]), Err(4_096));
}

/// A name of an arena that has been used, by a node of its own.
pub fn use_name(arena: &mut TypeArena, name: &str) -> Result<OutputTy, Refusal> {
    let inner = var(arena, 0);
    let node = arena.intern(OutputTy::Named(name.into(), inner))?;
    arena.get(node)
}

#[test]
fn numbers_found_before_are_of_the_arenas_own_names() {
    let mut source = named(&["a", "b", "d"]);
    let root = var(&mut source, 0);
    let alias = |name: &str| Ok(OutputTy::Named(name.into(), root));
    assert_eq!(use_name(&mut source, "d"), alias("d"));
    let mut target = named(&["b", "c"]);
    assert_eq!(use_name(&mut target, "b"), alias("b"));
    assert_eq!(use_name(&mut target, "c"), alias("c"));
    // With the source's names `b` has another number, and there is no `c`.
    source.compact_into(root, &mut target).unwrap();
    assert_eq!(use_name(&mut target, "b"), alias("b"));
    assert_eq!(use_name(&mut target, "c").unwrap_err().number(), 4);
    assert_eq!(use_name(&mut target, "d"), alias("d"));
    // More names move the others up.
    target.add_names(["aa", "c"]).unwrap();
    for name in ["aa", "b", "c", "d"] {
        assert_eq!(use_name(&mut target, name), alias(name));
    }
}

#[test]
fn what_was_found_before_is_no_part_of_an_arena() {
    let mut one = named(&["a"]);
    var(&mut one, 0);
    let other = one.clone();
    // Refused by the child, after the name was found.
    let node = OutputTy::Named("a".into(), TyRef::from_raw(9));
    assert_eq!(one.intern(node).unwrap_err().number(), 4);
    assert_eq!(one, other);
}
