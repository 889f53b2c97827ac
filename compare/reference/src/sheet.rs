//! A sheet, written and read, and its line. A sheet is read from the front, and the first fault met is the answer.

use std::collections::HashSet;

use crate::layout::{Layout, NEW, OLD};
use crate::limited::Lent;
use crate::node::{decode, Head, Node};
use crate::rust::Rust;
use crate::simplify::simplify;
use crate::table::{length_fits, next};
use crate::{Reply, NODES, TEXT, WORDS};

struct Bytes<'a> {
    sheet: &'a [u8],
    read: usize,
}

impl<'a> Bytes<'a> {
    /// The next bytes; 10 if one is missing or would be the 65,537th.
    fn take(&mut self, count: usize) -> Reply<&'a [u8]> {
        let end = self.read + count;
        if end > TEXT {
            return Err(10);
        }
        let taken = self.sheet.get(self.read..end).ok_or(10)?;
        self.read = end;
        Ok(taken)
    }

    fn number(&mut self, bytes: usize) -> Reply<u32> {
        let taken = self.take(bytes)?.iter();
        Ok(taken.fold(0, |n, &b| n << 8 | u32::from(b)))
    }
}

/// What a sheet holds.
#[derive(Debug, PartialEq)]
pub struct Sheet {
    pub names: Vec<String>,
    pub nodes: Vec<Node>,
    pub root: u32,
}

fn read_names(from: &mut Bytes, count: u32) -> Reply<Vec<String>> {
    let mut names = Vec::new();
    for _ in 0..count {
        let length = from.number(1)? as usize;
        if !length_fits(length) {
            return Err(1);
        }
        let name = from.take(length)?;
        names.push(next(name, names.last())?);
    }
    Ok(names)
}

fn read_nodes(layout: Layout, from: &mut Bytes, count: u32, names: usize) -> Reply<Vec<Node>> {
    let mut nodes = Vec::new();
    let mut seen = HashSet::new();
    let mut used = 0;
    for _ in 0..count {
        let mut words = vec![from.number(4)?];
        let head = Head::of(words[0]);
        if !head.fits() {
            return Err(3);
        }
        let body = from.take(4 * head.count)?.chunks(4);
        words.extend(body.map(|b| u32::from_be_bytes(b.try_into().unwrap())));
        let node = decode(layout, &words, nodes.len(), names)?;
        if !seen.insert(node.clone()) {
            return Err(10);
        }
        used += words.len();
        nodes.push(node);
        if nodes.len() > NODES || used > WORDS {
            return Err(7);
        }
    }
    Ok(nodes)
}

/// By the rules of this layout.
pub fn read(layout: Layout, sheet: &[u8]) -> Reply<Sheet> {
    let from = &mut Bytes { sheet, read: 0 };
    let opening = from.take(6)?;
    let part = |at: usize| u32::from_be_bytes([0, 0, opening[at], opening[at + 1]]);
    let (names, nodes, root) = (part(0), part(2), part(4));
    if names as usize > layout.names {
        return Err(1);
    }
    let names = read_names(from, names)?;
    let nodes = read_nodes(layout, from, nodes, names.len())?;
    if from.read < sheet.len() {
        return Err(10);
    }
    if root as usize >= nodes.len() {
        return Err(6);
    }
    Ok(Sheet { names, nodes, root })
}

/// The bytes of a sheet; 9 if they are more than so many, or 65,536.
pub fn write(layout: Layout, sheet: &Sheet, room: usize) -> Reply<Vec<u8>> {
    let counts = [sheet.names.len(), sheet.nodes.len(), sheet.root as usize];
    let mut bytes: Vec<u8> = Vec::new();
    for count in counts {
        bytes.extend((count as u16).to_be_bytes());
    }
    for name in &sheet.names {
        bytes.push(name.len() as u8);
        bytes.extend(name.bytes());
    }
    for node in &sheet.nodes {
        let words = node.encode_in(layout).into_iter();
        bytes.extend(words.flat_map(u32::to_be_bytes));
    }
    if bytes.len() > room.min(TEXT) {
        return Err(9);
    }
    Ok(bytes)
}

/// An old sheet in the new layout, in as many bytes; or 11 where the old rules refuse it. Written by the old one again it must be
/// what was read, so that no byte of it is lost, and the new one must say what the old one did.
pub fn convert(old: &[u8]) -> Reply<Vec<u8>> {
    let sheet = read(OLD, old).map_err(|_| 11)?;
    let written = |layout| write(layout, &sheet, old.len()).expect("it is as long");
    assert_eq!(written(OLD), old, "the sheet is written as another");
    let new = written(NEW);
    assert_eq!(
        read(NEW, &new).as_ref(),
        Ok(&sheet),
        "it says another thing"
    );
    Ok(new)
}

/// The line of a sheet, of this layout, without its last byte. `left_out` is set if the unchanged Rust was left out.
pub fn line(layout: Layout, sheet: &[u8], left_out: &mut bool) -> Reply<String> {
    let Sheet { names, nodes, root } = read(layout, sheet)?;
    let lent = Lent {
        words: WORDS,
        starts: NODES,
    };
    let run = simplify(&nodes, &names, root, lent);
    *left_out = !run.can_be_walked;
    if let Some(refusal) = run.arena.refused {
        return Err(refusal);
    }
    let text = Rust::holding(&run.arena.nodes, &names).display_nix(run.root, TEXT)?;
    Ok(format!("{} {} {text}", run.root, run.passes))
}

/// The root and the text by the unchanged Rust alone, as a host without limits would work: the sheet is read as above, but
/// neither the passes nor 7 and 8 are found, and names are bare.
pub fn unchanged_line(sheet: &[u8]) -> Reply<String> {
    let Sheet { names, nodes, root } = read(NEW, sheet)?;
    let mut rust = Rust::holding(&nodes, &names);
    let root = rust.simplify(root);
    let text = rust.display(root, TEXT)?;
    Ok(format!("{root} {text}"))
}

#[cfg(test)]
mod tests {
    use super::*;

    fn bytes(hex: &str) -> Vec<u8> {
        let digits: String = hex.split_whitespace().collect();
        let byte = |at: usize| u8::from_str_radix(&digits[at..at + 2], 16).unwrap();
        (0..digits.len()).step_by(2).map(byte).collect()
    }

    fn answer(hex: &str) -> Reply<String> {
        line(NEW, &bytes(hex), &mut false)
    }

    #[test]
    fn the_example() {
        let sheet = "000000030002 30000001 00000000 20000001 00000002 70000002 00000000 00000001";
        assert_eq!(answer(sheet).unwrap(), "1 2 int");
        assert_eq!(unchanged_line(&bytes(sheet)).unwrap(), "1 int");
        assert_eq!(answer(&format!("{sheet} 00")), Err(10));
        assert_eq!(answer(&sheet[..sheet.len() - 2]), Err(10));
    }

    #[test]
    fn written_again() {
        let hex = "000200020001 0170 027172 30000001 ffffffff 68000001 80008000";
        let (bytes, sheet) = (bytes(hex), read(NEW, &bytes(hex)).unwrap());
        assert_eq!(sheet.names, ["p", "qr"]);
        assert_eq!(write(NEW, &sheet, 65_537), Ok(bytes.clone()));
        assert_eq!(write(NEW, &sheet, bytes.len()), Ok(bytes.clone()));
        assert_eq!(write(NEW, &sheet, bytes.len() - 1), Err(9));
    }

    #[test]
    fn the_first_fault_met() {
        assert_eq!(answer(""), Err(10));
        assert_eq!(answer("1001 0000 00"), Err(10), "opening cut short");
        assert_eq!(answer("1001 0000 0000"), Err(1), "4,097 names");
        assert_eq!(answer("0001 0000 0000"), Err(10), "no length byte");
        assert_eq!(answer("0001 0000 0000 00"), Err(1), "length 0");
        assert_eq!(answer("0001 0000 0000 41"), Err(1), "length 65");
        assert_eq!(answer("0001 0000 0000 02 00"), Err(10), "name cut short");
        assert_eq!(answer("0001 0000 0000 01 1f"), Err(1), "byte 31");
        assert_eq!(answer("0000 0000 0000"), Err(6), "no node");
        assert_eq!(answer("0000 0000 0000 00"), Err(10), "left over before 6");
        assert_eq!(
            answer("0000 0001 0000 b0000001"),
            Err(3),
            "head before body"
        );
        assert_eq!(answer("0000 0001 0000 20000001 000000"), Err(10));
        assert_eq!(answer("0000 0001 0000 20000001 00000008"), Err(3));
        assert_eq!(answer("0000 0001 0000 40000001 00000000"), Err(4));
        assert_eq!(
            answer("0000 0002 0000 00000000 00000000"),
            Err(10),
            "repeat"
        );
        assert_eq!(answer("0000 ffff 0000 00000000"), Err(10));
        assert_eq!(answer("0000 0001 0001 00000000"), Err(6));
    }
    /// Names p, q and r; 0 a variable, 1 `q` of it, 2 a set with p, q optional and r, and a dynamic part.
    const OLD_SHEET: &str = "000300030002 0170 0171 0172 30000001 00000007 90000001 00800000
        6c000004 00000000 80800001 01000000 00000001";
    const CONVERTED: &str = "000300030002 0170 0171 0172 30000001 00000007 90000001 00008000
        6c000004 00000000 80008001 00010000 00000001";

    #[test]
    fn converted() {
        let (old, new) = (bytes(OLD_SHEET), bytes(CONVERTED));
        assert_eq!(convert(&old), Ok(new.clone()));
        let text = "2 2 { p: h, q?: q, r: h, _: q, ... }";
        assert_eq!(line(OLD, &old, &mut false).unwrap(), text);
        assert_eq!(line(NEW, &new, &mut false).unwrap(), text);
        assert_eq!(read(NEW, &old), Err(4), "name 256");
        assert_eq!(read(OLD, &new), Err(3), "zero of a field");
    }

    /// The same numbers as above become 11, also a root that isn't there; what `simplify` refuses doesn't.
    #[test]
    fn not_converted() {
        for hex in [
            "",
            "0101 0000 0000",
            "0001 0000 0000 41",
            "0000 0001 0000 20000001 00000008",
            "0000 0001 0000 40000001 00000000",
            "0001 0002 0000 0170 00000000 60000002 00000000 00000000",
            "0000 0002 0000 00000000 00000000",
            "0000 0001 0001 00000000",
            "0000 0001 0000 00000000 00",
            "0001 0002 0000 0170 00000000 90000001 00008000",
        ] {
            assert_eq!(convert(&bytes(hex)), Err(11), "{hex}");
        }
        assert_eq!(convert(&vec![0; 65_537]), Err(11));
    }
}
