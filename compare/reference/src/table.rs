//! The name table.

use std::ops::Range;

use crate::layout::NEW;
use crate::Reply;

/// Most bytes of a table that a host lends, and of a name.
pub const TABLE: usize = 65_536;
pub const LENGTH: usize = 64;

/// The names in order, or refusal 1.
pub fn check(mut bytes: &[u8]) -> Reply<Vec<String>> {
    if bytes.len() > TABLE {
        return Err(1);
    }
    let mut names = Vec::new();
    while let Some((&length, rest)) = bytes.split_first() {
        let length = usize::from(length);
        if !length_fits(length) || rest.len() < length || names.len() == NEW.names {
            return Err(1);
        }
        let (name, rest) = rest.split_at(length);
        names.push(next(name, names.last())?);
        bytes = rest;
    }
    Ok(names)
}

/// Where the text of a name lies in the table; 1, or 4 for a number that it hasn't. A name begins behind a length byte for
/// each name up to it and the texts before.
pub fn place(bytes: &[u8], number: u32) -> Reply<Range<usize>> {
    let names = check(bytes)?;
    let number = number as usize;
    let length = names.get(number).ok_or(4)?.len();
    let before: usize = names[..number].iter().map(String::len).sum();
    let start = number + 1 + before;
    Ok(start..start + length)
}

/// The number of the name that is this text; where none is, how many names come before the text; or refusal 1.
pub fn find(bytes: &[u8], text: &[u8]) -> Reply<Result<usize, usize>> {
    let names = check(bytes)?;
    let number = names.iter().position(|name| name.as_bytes() == text);
    let earlier = names.iter().filter(|name| before(name.as_bytes(), text));
    Ok(number.ok_or_else(|| earlier.count()))
}

/// Whether a name comes before a text: the first byte that differs is less, or the text goes on where the name ends.
fn before(name: &[u8], text: &[u8]) -> bool {
    let differing = name.iter().zip(text).find(|(one, other)| one != other);
    differing.map_or(name.len() < text.len(), |(one, other)| one < other)
}

pub fn length_fits(length: usize) -> bool {
    (1..=LENGTH).contains(&length)
}

/// A name after `last`: its bytes are printable and it is greater, byte by byte.
pub fn next(name: &[u8], last: Option<&String>) -> Reply<String> {
    let printable = name.iter().all(|b| (32..=126).contains(b));
    let rises = last.is_none_or(|last| last.as_bytes() < name);
    if !printable || !rises {
        return Err(1);
    }
    Ok(String::from_utf8(name.to_vec()).unwrap())
}

#[cfg(test)]
mod tests {
    use super::*;

    #[test]
    fn rules() {
        assert_eq!(check(b"").unwrap().len(), 0);
        assert_eq!(check(b"\x01 \x01~").unwrap(), [" ", "~"]);
        assert_eq!(check(b"\x01a\x02ab").unwrap(), ["a", "ab"]);
        for faulty in [
            &b"\x00"[..],
            b"\x01",
            b"\x02a",
            b"\x01\x1f",
            b"\x01\x7f",
            b"\x01a\x01a",
            b"\x01b\x01a",
            b"\x02ab\x01a",
        ] {
            assert_eq!(check(faulty), Err(1), "{faulty:?}");
        }
        let long = |n: usize| [vec![n as u8], vec![b'x'; n]].concat();
        assert!(check(&long(64)).is_ok());
        assert_eq!(check(&long(65)), Err(1));
    }

    #[test]
    fn places() {
        let table = b"\x01a\x02ab\x01b";
        assert_eq!(place(table, 0), Ok(1..2));
        assert_eq!(place(table, 1), Ok(3..5));
        assert_eq!(place(table, 2), Ok(6..7));
        for number in [3, 256, 4096, u32::MAX] {
            assert_eq!(place(table, number), Err(4));
            assert_eq!(place(b"\x02a", number), Err(1), "before 4");
        }
    }

    /// Texts that are names, texts between them, before all and after all, and texts that can be no name.
    #[test]
    fn finds() {
        let table = b"\x01a\x02ab\x03abc\x01b";
        for (number, name) in [&b"a"[..], b"ab", b"abc", b"b"].into_iter().enumerate() {
            assert_eq!(find(table, name), Ok(Ok(number)), "{name:?}");
        }
        for (text, earlier) in [
            (&b""[..], 0),
            (b"A", 0),
            (b"\x01a", 0),
            (b"a\0", 1),
            (b"aa", 1),
            (b"ab\xff", 3),
            (b"abcd", 3),
            (b"ac", 3),
            (b"b\0", 4),
            (b"ba", 4),
            (b"\xff", 4),
        ] {
            assert_eq!(find(table, text), Ok(Err(earlier)), "{text:?}");
        }
        assert_eq!(find(table, &[b'a'; 65]), Ok(Err(1)));
        assert_eq!(find(b"", b""), Ok(Err(0)));
        assert_eq!(find(b"", b"a"), Ok(Err(0)));
        assert_eq!(find(b"\x01a\x01", b"a"), Err(1), "before the text");
    }

    /// So many names of two bytes.
    fn pairs(count: u32) -> Vec<u8> {
        let name = |i: u32| [2, 32 + (i / 90) as u8, 32 + (i % 90) as u8];
        (0..count).flat_map(name).collect()
    }

    #[test]
    fn at_most_4096_names() {
        assert_eq!(check(&pairs(4096)).unwrap().len(), 4096);
        assert_eq!(check(&pairs(4097)), Err(1));
    }

    /// In a full table each name is found, and a text that is a name and a byte more stands behind that name.
    #[test]
    fn finds_among_4096_names() {
        let table = pairs(4096);
        for (number, entry) in table.chunks(3).enumerate().step_by(39) {
            assert_eq!(find(&table, &entry[1..]), Ok(Ok(number)));
            let longer = [&entry[1..], b" "].concat();
            assert_eq!(find(&table, &longer), Ok(Err(number + 1)));
        }
        assert_eq!(find(&pairs(4097), b"  "), Err(1));
    }

    /// 1,008 names of 64 bytes take 65,520, and a last one of 15 the rest.
    #[test]
    fn at_most_65536_bytes() {
        let table = |last: usize| -> Vec<u8> {
            let full = (0..1008).map(|i| format!("{i:064}"));
            let names = full.chain(["z".repeat(last)]);
            let entry = |name: String| [vec![name.len() as u8], name.into_bytes()].concat();
            names.flat_map(entry).collect()
        };
        assert_eq!((table(15).len(), table(16).len()), (65_536, 65_537));
        assert_eq!(check(&table(15)).unwrap().len(), 1009);
        assert_eq!(check(&table(16)), Err(1));
    }
}
