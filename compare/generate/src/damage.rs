//! Faults: of a table, of lent memory, of a node, of a sheet, of a fix. Calls apply one or several, so that
//! faults compete.

use reference::case::Host;
use reference::layout::{Layout, CHILD, NEW};
use reference::{NODES, WORDS};

use crate::build;
use crate::random::Random;

/// One to three faults of what a host lends.
pub fn host(host: &mut Host, random: &mut Random) {
    for _ in 0..random.pick(&[1, 1, 1, 2, 3]) {
        if random.percent(30) {
            table(&mut host.table, random);
        } else {
            memory(host, random);
        }
    }
}

/// The table of these names, so many in a hundred with one to three faults.
pub fn table_of(names: &[Vec<u8>], faulty: usize, random: &mut Random) -> Vec<u8> {
    let mut bytes = build::table(names);
    if random.percent(faulty) {
        for _ in 0..random.pick(&[1, 1, 2, 3]) {
            table(&mut bytes, random);
        }
    }
    bytes
}

/// Breaks a rule of tables, or nearly.
pub fn table(table: &mut Vec<u8>, random: &mut Random) {
    if table.is_empty() {
        *table = random.pick(&[
            vec![0],
            vec![1],
            vec![1, 31],
            vec![1, 127],
            [vec![65], vec![b'x'; 65]].concat(),
            b"\x01b\x01a".to_vec(),
            b"\x01a\x01a".to_vec(),
        ]);
        return;
    }
    let at = random.below(table.len());
    match random.below(8) {
        0 => drop(table.pop()),
        1 => table.push(random.next() as u8),
        2 => table[at] = random.pick(&[0, 31, 32, 64, 65, 126, 127, 255]),
        3 => table[0] = random.pick(&[0, 1, 64, 65, 255]),
        4 => drop(table.remove(at)),
        5 => {
            // The first name once more, at either end.
            let first = table[..=usize::from(table[0]).min(table.len() - 1)].to_vec();
            let place = if random.percent(50) { 0 } else { table.len() };
            table.splice(place..place, first);
        }
        6 => table[at] ^= 1 << random.below(8),
        _ => {
            let last = [vec![64], vec![126; 64]].concat();
            table.extend(last);
        }
    }
}

/// Breaks soundness or a limit, or nearly.
fn memory(host: &mut Host, random: &mut Random) {
    let memory = &mut host.memory;
    let used = (memory.used as usize).min(memory.words.len());
    let word = random.below(memory.words.len().max(1));
    let start = random.below(memory.starts.len().max(1));
    match random.below(14) {
        0 => memory.nodes = memory.nodes.wrapping_add(1),
        1 => memory.nodes = memory.nodes.wrapping_sub(1),
        2 => memory.used = memory.used.wrapping_add(1),
        3 => memory.used = memory.used.wrapping_sub(1),
        4 => memory.nodes = random.word(),
        5 => memory.used = random.word(),
        6 => memory.words.resize(WORDS + random.within(0..=1), 0),
        7 => memory.starts.resize(NODES + random.within(0..=1), 0),
        8 => drop(memory.words.pop()),
        9 => drop(memory.starts.pop()),
        10 if start < memory.starts.len() => memory.starts[start] = random.word(),
        11 if word < memory.words.len() => memory.words[word] ^= 1 << random.below(32),
        12 if used > 0 => memory.words[random.below(used)] ^= 1 << random.below(32),
        _ if used > 0 => {
            // A stored node's words over another's: equal nodes, or children too high.
            let at = random.below(used);
            memory.words[at] = memory.words[random.below(used)];
        }
        _ => memory.nodes = 1,
    }
}

/// Puts a fault 3, 4 or 5 into a node, for an arena of `nodes` nodes and a table of `names` names.
pub fn node(words: &mut Vec<u32>, nodes: usize, names: usize, random: &mut Random) {
    if words.is_empty() {
        return;
    }
    let at = random.below(words.len());
    let body = at.max(1).min(words.len() - 1);
    match random.below(13) {
        0 => words.clear(),
        1 => words[0] = words[0] & 0x0fff_ffff | (random.within(0..=15) as u32) << 28,
        2 => words[0] ^= 1 << random.below(32),
        3 => words[0] = words[0].wrapping_add(1),
        4 => words.push(random.below(nodes.max(1)) as u32),
        5 => drop(words.pop()),
        6 => words[body] ^= 1 << random.below(32),
        7 => words[body] = words[body] & !0xfff | (nodes as u32 + random.below(2) as u32) & 0xfff,
        8 => words[body] = words[body] & !NEW.name() | named(NEW, names),
        9 => words[body] |= NEW.name(),
        10 => words.swap(body, at),
        11 => words[body] = words[words.len() - 1],
        _ => {
            // A list of 65.
            let child = random.below(nodes.max(1)) as u32;
            *words = vec![random.pick(&[0x7000_0041, 0x8000_0041, 0x6000_0041])];
            words.resize(66, child);
        }
    }
}

/// The bits of a name of this number, or of another where it has too many.
fn named(layout: Layout, number: usize) -> u32 {
    (number as u32) << layout.lowest & layout.name()
}

/// A set with a fault 3, 4 or 5, or with several of them.
pub fn competing(layout: Layout, nodes: usize, names: usize, random: &mut Random) -> Vec<u32> {
    let count = random.within(2..=4).min(names.max(2));
    let mut field = |at: usize| named(layout, at) | random.below(nodes.max(1)) as u32;
    let mut body: Vec<u32> = (0..count).map(&mut field).collect();
    let faults = random.within(1..=7);
    if faults & 1 != 0 {
        // A zero field that isn't zero.
        let bits = CHILD as usize..=layout.lowest as usize - 1;
        body[random.below(count)] |= 1 << random.within(bits);
    }
    if faults & 2 != 0 {
        let at = random.below(count);
        body[at] = match random.percent(50) {
            true => body[at] & !0xfff | nodes as u32 & 0xfff,
            false => named(layout, names),
        };
    }
    if faults & 4 != 0 {
        let at = random.within(1..=count - 1);
        match random.percent(50) {
            true => body.swap(at - 1, at),
            false => body[at] = body[at] & 0xfff | body[at - 1] & !0xfff,
        }
    }
    [vec![0x6000_0000 + count as u32], body].concat()
}

pub fn sheet(sheet: &mut Vec<u8>, random: &mut Random) {
    if sheet.is_empty() {
        return;
    }
    let at = random.below(sheet.len());
    match random.below(9) {
        0 => sheet.truncate(at),
        1 => drop(sheet.pop()),
        2 => sheet.push(0),
        3 => sheet[at] ^= 1 << random.below(8),
        4 => sheet[at] = random.next() as u8,
        // The counts and the root.
        5 if sheet.len() > 5 => sheet[random.below(6)] = random.pick(&[0, 1, 2, 16, 255]),
        6 if sheet.len() > 5 => {
            let low = random.pick(&[1, 3, 5]);
            sheet[low] = sheet[low].wrapping_add(random.pick(&[1, 255]));
        }
        7 => drop(sheet.remove(at)),
        _ if random.percent(5) => sheet.resize(65_535 + random.below(3), 0),
        _ => sheet.extend_from_within(at..),
    }
}

/// Breaks the layout of a fix in one place, or nearly: more often in a child or a field than in a head.
pub fn fix(words: &mut Vec<u32>, names: usize, random: &mut Random) {
    let bodies = bodies(words);
    let (any, other) = (random.below(words.len()), random.below(words.len()));
    let at = match !bodies.is_empty() && random.percent(70) {
        true => random.pick(&bodies),
        false => any,
    };
    match random.below(11) {
        0 => words.truncate(at),
        1 => words.push(random.word()),
        2 => words[at] = words[at].wrapping_add(1),
        3 => words[at] = words[at].wrapping_sub(1),
        4 => words[at] |= 1 << random.pick(&[12, 13, 14, 16, 27, 31]),
        5 => words[at] = words[at] & !0xfff | random.below(words.len()) as u32 & 0xfff,
        6 => words[at] = words[at] & !NEW.name() | named(NEW, names),
        // The name before it once more.
        7 => words[at] = words[at] & 0xfff | words[at.saturating_sub(1)] & NEW.name(),
        8 => words.swap(at, other),
        9 => words.insert(at, words[other]),
        _ => words[at] ^= 1 << random.below(32),
    }
}

/// Where the children and fields of a fix's values stand.
fn bodies(words: &[u32]) -> Vec<usize> {
    let mut all = Vec::new();
    let mut head = 0;
    while let Some(word) = words.get(head) {
        let next = head + 1 + (word & 0xffff) as usize;
        all.extend(head + 1..next.min(words.len()));
        head = next;
    }
    all
}
