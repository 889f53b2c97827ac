//! Old sheets made new in their bytes. A field word of an old sheet has optional 1, name 8, zero 11 and child 12 bits.

use std::collections::BTreeMap;

use coombtray::{
    convert_sheet, layout, sheet_line, AttrSetTy, Field, Names, OutputTy, Refusal, TyRef, TypeArena,
};

use crate::build::*;
use crate::random::Random;

/// The sheet of these words, with the table as it stands in a sheet.
fn laid(counts: [u16; 3], table: &[u8], words: &[u32]) -> Vec<u8> {
    let counts = counts.iter().flat_map(|count| count.to_be_bytes());
    let words = words.iter().flat_map(|word| word.to_be_bytes());
    counts.chain(table.iter().copied()).chain(words).collect()
}

/// a, which has the name `q`, and an open set of that: `T` optional, `p` of a, `q` optional, and a dynamic part.
fn by_hand(named: u32, p: u32, q: u32) -> Vec<u8> {
    let set = [0x6c00_0004, 0x8000_0001, p, q, 1];
    let words = [&[0x3000_0001, 0, 0x9000_0001, named], &set[..]].concat();
    laid([3, 3, 2], b"\x01T\x01p\x01q", &words)
}

fn old() -> Vec<u8> {
    by_hand(0x0100_0000, 0x0080_0000, 0x8100_0001)
}

fn number<T>(answer: Result<T, Refusal>) -> u32 {
    answer.err().map_or(0, Refusal::number)
}

/// What becomes of a sheet that isn't refused.
fn converted(sheet: &[u8]) -> Vec<u8> {
    let mut lent = sheet.to_vec();
    assert_eq!(convert_sheet(&mut lent), Ok(()));
    lent
}

/// A sheet is refused by 11, and its bytes stay.
fn is_refused(sheet: &[u8], why: &str) {
    let mut lent = sheet.to_vec();
    assert_eq!(number(convert_sheet(&mut lent)), 11, "{why}");
    assert!(lent == sheet, "{why}: its bytes changed");
}

#[test]
fn only_field_words_change() {
    let new = by_hand(0x0001_0000, 0x0000_8000, 0x8001_0001);
    assert_eq!(number(sheet_line(&old())), 4, "it isn't new yet");
    assert_eq!(converted(&old()), new);
    let line = "2 2 { T?: q, p: a, q?: q, _: q, ... }";
    assert_eq!(sheet_line(&new), Ok(line.into()));
    is_refused(&new, "it is new already");
}

#[test]
fn the_first_name_has_the_same_words() {
    let words = [0x3000_0001, 0, 0x9000_0001, 0];
    let sheet = laid([3, 2, 1], b"\x01T\x01p\x01q", &words);
    assert_eq!(sheet_line(&sheet), Ok("1 2 T".into()));
    assert_eq!(converted(&sheet), sheet);
}

/// The by-hand sheet with some bytes at a place changed.
fn with(place: usize, bytes: &[u8]) -> Vec<u8> {
    let mut sheet = old();
    sheet[place..place + bytes.len()].copy_from_slice(bytes);
    sheet
}

// Counts in bytes 0 to 5, the table in 6 to 11; a at 12, the named type's head at 20 and its word at 24, the set's head at
// 28, its fields at 32, 36 and 40, its dynamic part at 44.

#[test]
fn one_of_the_old_rules() {
    is_refused(&with(6, &[0]), "no byte in a name");
    is_refused(&with(6, &[65]), "65 bytes in a name");
    is_refused(&with(7, &[31]), "a byte below 32");
    is_refused(&with(7, &[127]), "a byte above 126");
    is_refused(&with(9, b"T"), "a name twice");
    is_refused(&with(0, &[1, 1]), "257 names, whatever comes then");
    for (count, refused) in [(256, 0), (257, 11)] {
        let names = Names::new((0..count).map(|k| format!("n{k:03}"))).unwrap();
        let mut t = TypeArena::new(names);
        let a = var(&mut t, 0);
        let root = put(&mut t, OutputTy::Named("n255".into(), a));
        let new = sheet(&t, root.into_raw());
        assert_eq!(sheet_line(&new), Ok("1 2 n255".into()));
        let old = aged(&t, root);
        assert_eq!(number(convert_sheet(&mut old.clone())), refused);
        match refused {
            0 => assert!(converted(&old) == new),
            _ => is_refused(&old, "257 names"),
        }
    }
}

#[test]
fn three_of_the_old_rules() {
    is_refused(&with(28, &[0xb0]), "no such kind");
    is_refused(&with(29, &[1]), "a zero field of the head");
    is_refused(&with(20, &[0x98]), "an open one that is no set");
    is_refused(&with(24, &[0x81]), "an optional one that is no set's");
    let spoilt = |place: usize, bit: u32| {
        let sheet = old();
        let word = u32::from_be_bytes(sheet[place..place + 4].try_into().unwrap());
        with(place, &(word | 1 << bit).to_be_bytes())
    };
    for bit in 12..23 {
        for place in [24, 32, 36, 40] {
            is_refused(&spoilt(place, bit), "a zero field of a field word");
        }
    }
    for bit in 12..32 {
        is_refused(&spoilt(44, bit), "a zero field of a child word");
    }
}

#[test]
fn four_of_the_old_rules() {
    is_refused(&with(27, &[1]), "a named type of itself");
    is_refused(&with(47, &[2]), "a set of itself");
    is_refused(&with(24, &[1, 0x80]), "a fourth name of three");
    is_refused(&with(40, &[0xff, 0x80]), "name 255 of three");
}

#[test]
fn five_six_and_seven_of_the_old_rules() {
    is_refused(&with(36, &[0, 0]), "two fields of one name");
    is_refused(&with(36, &[1, 0x80]), "falling names");
    is_refused(&with(4, &[0, 3]), "no such root");
    is_refused(&with(4, &[255, 255]), "no such root");
    for count in [4_096, 4_097] {
        let words = (0..count).flat_map(|k| [0x3000_0001, k]);
        let sheet = laid([0, count as u16, 0], b"", &words.collect::<Vec<_>>());
        match count {
            4_096 => assert!(converted(&sheet) == sheet),
            _ => is_refused(&sheet, "4,097 nodes"),
        }
    }
}

#[test]
fn ten_of_the_old_rules() {
    for end in 0..old().len() {
        is_refused(&old()[..end], "it ends early");
    }
    is_refused(&[&old()[..], &[0]].concat(), "it goes on");
    is_refused(&with(3, &[2]), "it goes on after two nodes");
    is_refused(&with(3, &[4]), "a fourth node is missing");
    let twice = [&old()[..], &old()[20..28]].concat();
    let twice = [&[0, 3, 0, 4, 0, 2], &twice[6..]].concat();
    is_refused(&twice, "a node repeats");
}

/// Words in the layout of old sheets, of nodes that have no name above 255.
fn aged_words(words: &[u32]) -> Vec<u32> {
    let mut words = words.to_vec();
    let mut at = 0;
    while at < words.len() {
        let (head, first) = (words[at], at + 1);
        for word in &mut words[first..first + layout::fields(head)] {
            *word = *word & 0x8000_0fff | (*word >> 15 & 0xff) << 23;
        }
        at = first + layout::count(head);
    }
    words
}

/// The old sheet of an arena.
fn aged(t: &TypeArena, root: TyRef) -> Vec<u8> {
    let counts = [t.names().len() as u16, t.len() as u16];
    let counts = [counts[0], counts[1], root.into_raw() as u16];
    laid(counts, t.names().table(), &aged_words(t.words()))
}

#[test]
fn the_longest_old_sheet() {
    // 64 variables, 250 unions of 64 members, the second name and any: 16,381 words behind 12 bytes.
    let at = TyRef::from_raw;
    let vars = (0..64).map(OutputTy::TyVar);
    let wide = (0..250).map(|k| [vec![at(k % 64), at(k / 64)], vec![at(0); 62]].concat());
    let last = [OutputTy::Named("yyy".into(), at(0)), OutputTy::Top];
    let nodes = vars.chain(wide.map(OutputTy::Union)).chain(last);
    let t = TypeArena::from_nodes(Names::new(["x", "yyy"]).unwrap(), nodes).unwrap();
    let old = aged(&t, at(314));
    assert_eq!(old.len(), 65_536);
    let new = converted(&old);
    assert!(new == sheet(&t, 314) && new != old);
    assert_eq!(sheet_line(&new), Ok("314 2 yyy".into()));
    is_refused(&[&old[..], &[0]].concat(), "65,537 bytes");
    is_refused(&vec![0; 70_000], "zeros");
    // One byte more in a name, so that the last byte of the last node is the 65,537th.
    let longer = [&old[..8], b"\x04yyyy", &old[12..]].concat();
    assert_eq!(longer.len(), 65_537);
    is_refused(&longer, "65,537 bytes, all of them nodes");
}

impl Random {
    fn old_node(&mut self, names: &[String], there: u32) -> OutputTy {
        let child = TyRef::from_raw(self.below(there.max(1)));
        match self.below(if there == 0 { 2 } else { 7 }) {
            0 => OutputTy::Top,
            1 => OutputTy::TyVar(self.below(9)),
            2 => OutputTy::List(child),
            3 => OutputTy::Union(vec![child, TyRef::from_raw(self.below(there))]),
            4 => OutputTy::Named(self.old_name(names), child),
            _ => OutputTy::AttrSet(self.old_set(names, there)),
        }
    }

    fn old_name(&mut self, names: &[String]) -> String {
        names[self.below(names.len() as u32) as usize].clone()
    }

    fn old_set(&mut self, names: &[String], there: u32) -> AttrSetTy {
        let mut fields = BTreeMap::new();
        for _ in 0..self.below(5) {
            let (ty, optional) = (TyRef::from_raw(self.below(there)), self.below(2) == 0);
            fields.insert(self.old_name(names), Field { ty, optional });
        }
        let dyn_ty = (self.below(2) == 0).then(|| TyRef::from_raw(self.below(there)));
        let open = self.below(2) == 0;
        AttrSetTy {
            fields,
            dyn_ty,
            open,
        }
    }
}

/// Random types: the converted sheet is the arena's own, and an old one that uses another name than the first wasn't read.
#[test]
fn random_sheets() {
    let mut random = Random::new(20);
    let mut met = [0; 2];
    for round in 0..500 {
        let count = [1, 2, 30, 256][round % 4];
        let names: Vec<String> = (0..count).map(|k| format!("n{k:03}")).collect();
        let mut t = TypeArena::new(Names::new(&names).unwrap());
        for _ in 0..1 + random.below(20) {
            let node = random.old_node(&names, t.len() as u32);
            put(&mut t, node);
        }
        let root = random.below(t.len() as u32);
        let (old, new) = (aged(&t, TyRef::from_raw(root)), sheet(&t, root));
        assert!(converted(&old) == new, "{old:x?}");
        let line = sheet_line(&new);
        assert_ne!(number(line.clone()), 4);
        let changed = old != new;
        met[usize::from(changed)] += 1;
        if changed {
            assert_eq!(number(sheet_line(&old)), 4, "{old:x?}");
            is_refused(&new, "it is new already");
        } else {
            assert!(sheet_line(&old) == line);
        }
    }
    assert!(met[0] > 50 && met[1] > 50, "{met:?}");
}
