//! Texts that are sought in name tables.

use reference::case::Case;
use reference::layout::NEW;
use reference::table::{LENGTH, TABLE};

use crate::build::{names, names_by, names_of_bytes, printable};
use crate::damage;
use crate::random::Random;

/// A text sought in a table: a name of another table or a text near a name of this one.
pub fn find_name(random: &mut Random) -> Case {
    let mut names = some_names(random);
    let text = match random.percent(30) {
        true => of_another(&mut names, random),
        false => text(&names, random),
    };
    let table = damage::table_of(&names, 8, random);
    Case::FindName(table, text)
}

/// Names for a table, mostly few; now and then as many, or with as many bytes, as may be, one less or one more.
fn some_names(random: &mut Random) -> Vec<Vec<u8>> {
    let limits = random.below(3);
    match random.below(100) {
        0..2 => names(random, NEW.names - 1 + limits),
        2 => names_of_bytes(random, TABLE - 1 + limits),
        3..8 => {
            let count = random.pick(&[255, 256, 257]);
            names(random, count)
        }
        8..40 => fronts(random),
        _ => {
            let count = random.pick(&[0, 1, 2, 3, 4, 7, 8, 9, 16]);
            names(random, count)
        }
    }
}

/// Names that begin with one another: fronts of one long name, some with another last byte.
fn fronts(random: &mut Random) -> Vec<Vec<u8>> {
    let longest: Vec<u8> = (0..LENGTH).map(|_| random.pick(b"ab")).collect();
    let most = random.pick(&[5, LENGTH]);
    let count = random.within(2..=9);
    names_by(random, count, |random| {
        let mut name = longest[..random.within(1..=most)].to_vec();
        if random.percent(40) {
            *name.last_mut().unwrap() = random.pick(b" b~");
        }
        name
    })
}

/// Gives each name to this table, to another or to both, and seeks one of the other's: the two are disjoint, have some names in
/// common, or are equal.
fn of_another(names: &mut Vec<Vec<u8>>, random: &mut Random) -> Vec<u8> {
    let common = random.pick(&[0, 0, 40, 100]);
    let mut other = Vec::new();
    names.retain(|name| {
        let (both, here) = (random.percent(common), random.percent(50));
        if both || !here {
            other.push(name.clone());
        }
        both || here
    });
    match other.is_empty() {
        true => text(names, random),
        false => random.pick(&other),
    }
}

/// A name of the table, a text made from one, or one that has nothing to do with them.
fn text(names: &[Vec<u8>], random: &mut Random) -> Vec<u8> {
    if names.is_empty() || random.percent(8) {
        return any(random);
    }
    let last = names.len() - 1;
    let within = random.within(0..=last);
    let mut text = names[random.pick(&[0, last, within, within])].clone();
    let byte = random.next() as u8;
    match random.below(10) {
        0..3 => {}
        // A front of it, perhaps of no byte.
        3 => text.truncate(random.below(text.len())),
        4 => text.extend(printable(random, 1..=3)),
        5 => text.insert(0, text.len() as u8),
        // Next to it, before or behind.
        6 => *text.last_mut().unwrap() ^= 1,
        // Often with a byte that no name has.
        7 => {
            let at = random.below(text.len());
            text[at] = byte;
        }
        8 => text.push(byte),
        // Longer than any name; with 256 bytes more its length has the same lowest byte.
        _ => {
            let length = random.within(LENGTH + 1..=300);
            text.resize(random.pick(&[length, text.len() + 256]), byte);
        }
    }
    text
}

/// No byte, a text before or after all others, or any of a length that names have.
fn any(random: &mut Random) -> Vec<u8> {
    let length = random.pick(&[1, LENGTH, LENGTH + 1]);
    match random.below(3) {
        0 => vec![],
        1 => vec![random.pick(&[0, b' ', b'~', 127, 255]); length],
        _ => printable(random, 1..=LENGTH),
    }
}

#[cfg(test)]
mod tests {
    use std::collections::BTreeMap;

    use reference::table::{check, find};

    use super::*;
    use crate::build;

    /// What a case is, by the reference: where the text stands, and what table and text are like.
    fn kinds(table: &[u8], text: &[u8]) -> Vec<(&'static str, bool)> {
        let Ok(names) = check(table) else {
            return vec![("a faulty table", true)];
        };
        let count = names.len();
        let place = find(table, text).unwrap();
        let names: Vec<&[u8]> = names.iter().map(|name| name.as_bytes()).collect();
        let longer = |name: &&[u8]| name.len() > text.len() && name.starts_with(text);
        let shorter = |name: &&[u8]| name.len() < text.len() && text.starts_with(name);
        let counted = |name: &&[u8]| build::table(&[name.to_vec()]) == text;
        let inner = |number| 0 < number && number < count - 1;
        let nested = |two: &[&[u8]]| two[1].starts_with(two[0]);
        vec![
            ("the first name", place == Ok(0) && count > 1),
            ("the last name", count > 1 && place == Ok(count - 1)),
            ("an inner name", place.is_ok_and(inner)),
            ("before all", count > 0 && place == Err(0)),
            ("between names", place.is_err_and(|n| 0 < n && n < count)),
            ("after all", count > 0 && place == Err(count)),
            ("no byte", text.is_empty()),
            ("a front", !text.is_empty() && names.iter().any(longer)),
            ("a name and more", names.iter().any(shorter)),
            ("a name behind its length", names.iter().any(counted)),
            ("over 64 bytes", text.len() > LENGTH),
            ("over 256 bytes", text.len() > 256),
            ("odd bytes", text.iter().any(|b| !(32..=126).contains(b))),
            ("names in names", names.windows(2).any(nested)),
            ("no name", count == 0),
            ("4,096 names", count == NEW.names),
            ("65,536 bytes", table.len() == TABLE),
        ]
    }

    #[test]
    fn every_kind_is_met() {
        let mut met = BTreeMap::new();
        for number in 0..1_000 {
            let case = find_name(&mut Random::new(1, 25, number));
            let Case::FindName(table, text) = case else {
                panic!("another operation");
            };
            for (kind, is_so) in kinds(&table, &text) {
                *met.entry(kind).or_insert(0) += usize::from(is_so);
            }
        }
        assert!(met.len() == 18 && met.values().all(|&n| n > 0), "{met:?}");
    }
}
