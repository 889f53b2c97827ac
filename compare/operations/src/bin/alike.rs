//! Writes two sheets of as many nodes of the same kinds into the current folder, as cases of operation 8: in `alike` all nodes
//! but the variables share one hash, in `unlike` they are random. `compare/bench-collisions` measures them.
//!
//! The hash is that of the check of lent memory. Each node is a set of three fields over 96 variables, under 256 names. The
//! first field's word is added to the hash of the other two, so that it can be solved for: about one pair of fields in some
//! 260,000 leaves a word that is a field. The children are few and low, since a search for a node goes through all nodes after
//! its highest child.

use std::collections::HashSet;
use std::fs;

use reference::layout::NEW;

const VARIABLES: u32 = 96;
const SETS: usize = 3_988;
const NAMES: u32 = 256;
const SET_OF_THREE: u32 = 0x6000_0003;
/// What the first field's word and the hash of the other two add up to.
const SUM: u32 = 0x1234_5678;

/// One more word of a node in its hash.
fn mix(word: u32, hash: u32) -> u32 {
    let sum = word.wrapping_add(hash);
    (u64::from(sum) * 2_654_435_769 >> 13) as u32
}

fn hash(node: &[u32]) -> u32 {
    node.iter().rev().fold(0, |hash, &word| mix(word, hash))
}

/// The words of all fields with a name from `first` up to `end`.
fn fields(first: u32, end: u32) -> impl Iterator<Item = u32> {
    let named = (first..end).flat_map(|name| [0, 1 << 31].map(|mark| mark | name << NEW.lowest));
    named.flat_map(|field| (0..VARIABLES).map(move |child| field | child))
}

fn name_of(field: u32) -> u32 {
    (field & NEW.name()) >> NEW.lowest
}

/// Whether a word is a field with a name below this one.
fn is_field(word: u32, below: u32) -> bool {
    let zero = word & NEW.zero() == 0;
    zero && (word & 0xfff) < VARIABLES && name_of(word) < below
}

fn alike() -> Vec<[u32; 4]> {
    let mut found = Vec::new();
    for third in fields(2, NAMES) {
        let last = mix(third, 0);
        for second in fields(1, name_of(third)) {
            let first = SUM.wrapping_sub(mix(second, last));
            if is_field(first, name_of(second)) {
                found.push([SET_OF_THREE, first, second, third]);
            }
            if found.len() == SETS {
                return found;
            }
        }
    }
    panic!("only {} sets share a hash", found.len());
}

/// Sets of the same size, by a xorshift generator.
fn unlike() -> Vec<[u32; 4]> {
    let mut state = 0x9e37_79b9_7f4a_7c15_u64;
    let mut below = |bound: u32| {
        state ^= state << 13;
        state ^= state >> 7;
        state ^= state << 17;
        (state >> 33) as u32 % bound
    };
    let mut seen = HashSet::new();
    while seen.len() < SETS {
        let mut names = [below(NAMES), below(NAMES), below(NAMES)];
        names.sort();
        if names[0] < names[1] && names[1] < names[2] {
            let field = |name: u32| below(2) << 31 | name << NEW.lowest | below(VARIABLES);
            let [first, second, third] = names.map(field);
            seen.insert([SET_OF_THREE, first, second, third]);
        }
    }
    let mut sets: Vec<[u32; 4]> = seen.into_iter().collect();
    sets.sort();
    sets
}

/// The variables and these sets, the last of which is the root, as a case of operation 8.
fn case(sets: &[[u32; 4]]) -> Vec<u8> {
    let nodes = VARIABLES as usize + sets.len();
    let counts = [NAMES as u16, nodes as u16, nodes as u16 - 1];
    let mut sheet: Vec<u8> = counts.into_iter().flat_map(u16::to_be_bytes).collect();
    for name in 0..NAMES {
        sheet.extend(format!("\u{2}{name:02x}").bytes());
    }
    let variables = (0..VARIABLES).flat_map(|index| [0x3000_0001, index]);
    let words = variables.chain(sets.iter().flatten().copied());
    sheet.extend(words.flat_map(u32::to_be_bytes));
    assert!(sheet.len() <= 65_536, "{} bytes are no sheet", sheet.len());
    [&[8], &(sheet.len() as u32).to_be_bytes()[..], &sheet].concat()
}

fn main() {
    for (path, sets) in [("alike", alike()), ("unlike", unlike())] {
        let hashes: HashSet<u32> = sets.iter().map(|set| hash(set)).collect();
        let (count, different) = (sets.len(), hashes.len());
        assert!(path == "unlike" || different == 1, "{different} hashes");
        println!("{path}\t{count}\t{different}");
        fs::write(path, case(&sets)).expect("can't write a file");
    }
}
