//! The raw calls with memory and nodes that the crate never lends: 1, 2, 3 and 5.

use coombtray::ffi;

use crate::finding::raw_find;

/// What a host lends, and what it reads afterwards.
#[derive(Clone, PartialEq, Debug)]
struct Lent {
    table: Vec<u8>,
    words: Vec<u32>,
    starts: Vec<u32>,
    nodes: usize,
    used: usize,
    told: [u32; 2],
    length: usize,
    bytes: Vec<u8>,
    vars: Vec<u32>,
}

/// The sound arena of p, a and [a] in seven words and four starts; results are set to numbers of their own.
fn sound() -> Lent {
    Lent {
        table: b"\x01p".to_vec(),
        words: vec![0x3000_0001, 0, 0x4000_0001, 0, 0, 0, 0],
        starts: vec![0, 2, 0, 0],
        nodes: 2,
        used: 4,
        told: [77, 78],
        length: 79,
        bytes: vec![80; 26],
        vars: vec![81; ffi::VARS],
    }
}

type Read = unsafe extern "C" fn(
    *const u8,
    usize,
    *const u32,
    usize,
    *const u32,
    usize,
    usize,
    usize,
    u32,
    *mut u32,
) -> u32;

type Change = unsafe extern "C" fn(
    *const u8,
    usize,
    *mut u32,
    usize,
    *mut u32,
    usize,
    *mut usize,
    *mut usize,
    u32,
    *mut u32,
) -> u32;

type Write = unsafe extern "C" fn(
    *const u8,
    usize,
    *const u32,
    usize,
    *const u32,
    usize,
    usize,
    usize,
    u32,
    *mut u8,
    usize,
    *mut usize,
) -> u32;

// SAFETY, for every block below: each pointer and length is that of a vector or a number that lives through the call, and
// none that is written is passed twice.
impl Lent {
    fn read(&mut self, call: Read) -> u32 {
        let (table, words, starts) = (&self.table, &self.words, &self.starts);
        let (told, root) = (&mut self.told[0], 1);
        unsafe {
            call(
                table.as_ptr(),
                table.len(),
                words.as_ptr(),
                words.len(),
                starts.as_ptr(),
                starts.len(),
                self.nodes,
                self.used,
                root,
                told,
            )
        }
    }

    fn change(&mut self, call: Change) -> u32 {
        let (table, words, starts) = (&self.table, &mut self.words, &mut self.starts);
        let (told, root) = (&mut self.told[0], 1);
        unsafe {
            call(
                table.as_ptr(),
                table.len(),
                words.as_mut_ptr(),
                words.len(),
                starts.as_mut_ptr(),
                starts.len(),
                &mut self.nodes,
                &mut self.used,
                root,
                told,
            )
        }
    }

    fn compare(&mut self) -> u32 {
        let (table, words, starts) = (&self.table, &self.words, &self.starts);
        unsafe {
            ffi::lang_ty_compare(
                table.as_ptr(),
                table.len(),
                words.as_ptr(),
                words.len(),
                starts.as_ptr(),
                starts.len(),
                self.nodes,
                self.used,
                0,
                1,
                &mut self.told[0],
            )
        }
    }

    fn free_type_vars(&mut self) -> u32 {
        let (table, words, starts) = (&self.table, &self.words, &self.starts);
        unsafe {
            ffi::lang_ty_free_type_vars(
                table.as_ptr(),
                table.len(),
                words.as_ptr(),
                words.len(),
                starts.as_ptr(),
                starts.len(),
                self.nodes,
                self.used,
                1,
                self.vars.as_mut_ptr().cast(),
                &mut self.length,
            )
        }
    }

    fn write(&mut self, call: Write) -> u32 {
        let (table, words, starts) = (&self.table, &self.words, &self.starts);
        unsafe {
            call(
                table.as_ptr(),
                table.len(),
                words.as_ptr(),
                words.len(),
                starts.as_ptr(),
                starts.len(),
                self.nodes,
                self.used,
                1,
                self.bytes.as_mut_ptr(),
                self.bytes.len(),
                &mut self.length,
            )
        }
    }

    fn intern(&mut self, node: &[u32]) -> u32 {
        let (table, words, starts) = (&self.table, &mut self.words, &mut self.starts);
        unsafe {
            ffi::lang_ty_intern(
                table.as_ptr(),
                table.len(),
                words.as_mut_ptr(),
                words.len(),
                starts.as_mut_ptr(),
                starts.len(),
                &mut self.nodes,
                &mut self.used,
                node.as_ptr(),
                node.len(),
                &mut self.told[0],
            )
        }
    }

    fn simplify(&mut self) -> u32 {
        let (table, words, starts) = (&self.table, &mut self.words, &mut self.starts);
        let [root_after, passes] = &mut self.told;
        unsafe {
            ffi::lang_ty_simplify(
                table.as_ptr(),
                table.len(),
                words.as_mut_ptr(),
                words.len(),
                starts.as_mut_ptr(),
                starts.len(),
                &mut self.nodes,
                &mut self.used,
                1,
                root_after,
                passes,
            )
        }
    }

    fn compact(&mut self, target: &mut Lent) -> u32 {
        let (table, words, starts) = (&self.table, &self.words, &self.starts);
        unsafe {
            ffi::lang_ty_compact(
                table.as_ptr(),
                table.len(),
                words.as_ptr(),
                words.len(),
                starts.as_ptr(),
                starts.len(),
                self.nodes,
                self.used,
                1,
                target.words.as_mut_ptr(),
                target.words.len(),
                target.starts.as_mut_ptr(),
                target.starts.len(),
                &mut target.nodes,
                &mut target.used,
                &mut self.told[0],
            )
        }
    }

    fn import(&mut self, target: &mut Lent) -> u32 {
        let (table, words, starts) = (&self.table, &self.words, &self.starts);
        unsafe {
            ffi::lang_ty_import_from_arena(
                table.as_ptr(),
                table.len(),
                words.as_ptr(),
                words.len(),
                starts.as_ptr(),
                starts.len(),
                self.nodes,
                self.used,
                1,
                target.table.as_ptr(),
                target.table.len(),
                target.words.as_mut_ptr(),
                target.words.len(),
                target.starts.as_mut_ptr(),
                target.starts.len(),
                &mut target.nodes,
                &mut target.used,
                &mut self.told[0],
            )
        }
    }

    fn fits(&mut self, fix: &[u32]) -> u32 {
        let (table, words, starts) = (&self.table, &self.words, &self.starts);
        unsafe {
            ffi::lang_ty_fits(
                table.as_ptr(),
                table.len(),
                words.as_ptr(),
                words.len(),
                starts.as_ptr(),
                starts.len(),
                self.nodes,
                self.used,
                1,
                fix.as_ptr(),
                fix.len(),
                &mut self.told[0],
            )
        }
    }

    fn structurally_eq(&mut self, other: &Lent) -> u32 {
        let (table, words, starts) = (&self.table, &self.words, &self.starts);
        unsafe {
            ffi::lang_ty_structurally_eq(
                table.as_ptr(),
                table.len(),
                words.as_ptr(),
                words.len(),
                starts.as_ptr(),
                starts.len(),
                self.nodes,
                self.used,
                1,
                other.table.as_ptr(),
                other.table.len(),
                other.words.as_ptr(),
                other.words.len(),
                other.starts.as_ptr(),
                other.starts.len(),
                other.nodes,
                other.used,
                1,
                &mut self.told[0],
            )
        }
    }
}

type Call = fn(&mut Lent) -> u32;

/// Every call that is lent an arena.
const CALLS: [Call; 21] = [
    |l| l.read(ffi::lang_ty_count_reachable),
    |l| l.read(ffi::lang_ty_unwrap_named),
    |l| l.read(ffi::lang_ty_has_type_vars),
    |l| l.read(ffi::lang_ty_needs_var_normalization),
    |l| l.read(ffi::lang_ty_contains_bare_tyvar),
    |l| l.read(ffi::lang_ty_has_shared_tyvar_across_lambda_params),
    |l| l.change(ffi::lang_ty_normalize_vars),
    |l| l.change(ffi::lang_ty_normalize_replacing_unknown),
    |l| l.change(ffi::lang_ty_normalize_set_ops),
    Lent::compare,
    Lent::free_type_vars,
    |l| l.write(ffi::lang_ty_display),
    |l| l.write(ffi::lang_ty_display_nix),
    |l| l.write(ffi::lang_ty_write_sheet),
    |l| l.intern(&[0]),
    Lent::simplify,
    |l| l.compact(&mut sound()),
    |l| l.structurally_eq(&sound()),
    |l| l.import(&mut sound()),
    |l| sound().import(l),
    |l| l.fits(&[0]),
];

/// Every call refuses this memory by the number, and leaves all of it and the results as they were.
fn all_refuse(number: u32, spoil: fn(&mut Lent)) {
    let mut lent = sound();
    spoil(&mut lent);
    let before = lent.clone();
    for (at, call) in CALLS.iter().enumerate() {
        assert_eq!(call(&mut lent), number, "call {at} on {before:?}");
        assert!(lent == before, "call {at} changed {before:?}");
    }
    let mut left = sound();
    assert_eq!(left.structurally_eq(&lent), number);
    assert!(left == sound());
}

#[test]
fn a_sound_arena_is_answered() {
    for (at, call) in CALLS.iter().enumerate() {
        // 14: the type has a variable.
        let answer = call(&mut sound());
        assert!([0, 14].contains(&answer), "call {at}: {answer}");
    }
}

/// So many names of so many bytes each.
fn table_of(count: usize, length: usize) -> Vec<u8> {
    let names = (0..count).map(|k| format!("{}{k:0length$}", length as u8 as char));
    names.collect::<String>().into_bytes()
}

/// 1,009 names in 65,536 bytes.
fn full_table() -> Vec<u8> {
    [table_of(1_008, 64), b"\x0f}~~~~~~~~~~~~~~".to_vec()].concat()
}

/// The same with one byte more.
fn last_name_longer() -> Vec<u8> {
    [table_of(1_008, 64), b"\x10}~~~~~~~~~~~~~~~".to_vec()].concat()
}

#[test]
fn a_full_table_is_answered() {
    assert_eq!(full_table().len(), ffi::TABLE);
    assert_eq!(last_name_longer().len(), ffi::TABLE + 1);
    for table in [full_table(), table_of(4_096, 15)] {
        for (at, call) in CALLS.iter().enumerate() {
            let mut lent = sound();
            lent.table.clone_from(&table);
            // 9: the sheet of so many names has no room in the lent bytes; 14 as above.
            let answer = call(&mut lent);
            assert!([0, 9, 14].contains(&answer), "call {at}: {answer}");
        }
    }
}

#[test]
fn one() {
    all_refuse(1, |l| l.table = b"\x00".to_vec());
    all_refuse(1, |l| l.table = b"\x02p".to_vec());
    all_refuse(1, |l| l.table = b"\x01\x1f".to_vec());
    all_refuse(1, |l| l.table = b"\x01q\x01p".to_vec());
    all_refuse(1, |l| l.table = b"\x01p\x01p".to_vec());
    all_refuse(1, |l| l.table = table_of(4_097, 4));
    all_refuse(1, |l| l.table = [&full_table()[..], b"\x01~"].concat());
    all_refuse(1, |l| l.table = last_name_longer());
    // Before 2.
    all_refuse(1, |l| {
        l.table = b"\x41".to_vec();
        l.nodes = 9;
    });
}

#[test]
fn two() {
    all_refuse(2, |l| l.nodes = 1);
    all_refuse(2, |l| l.nodes = 5);
    all_refuse(2, |l| l.nodes = usize::MAX);
    all_refuse(2, |l| l.used = 3);
    all_refuse(2, |l| l.used = 5);
    all_refuse(2, |l| l.used = usize::MAX);
    all_refuse(2, |l| l.words[6] = 1);
    all_refuse(2, |l| l.starts[3] = 1);
    all_refuse(2, |l| l.starts[1] = 1);
    all_refuse(2, |l| l.words[3] = 1);
    all_refuse(2, |l| l.words[2] = 0x3000_0001);
    all_refuse(2, |l| l.words[0] = 0xb000_0001);
    all_refuse(2, |l| l.words.resize(ffi::WORDS + 1, 0));
    all_refuse(2, |l| l.starts.resize(ffi::STARTS + 1, 0));
    all_refuse(2, |l| l.words.clear());
    all_refuse(2, |l| l.starts.clear());
}

#[test]
fn a_target_over_a_limit() {
    for (words, starts) in [(ffi::WORDS + 1, 0), (0, ffi::STARTS + 1)] {
        let mut target = sound();
        target.words.resize(words, 5);
        target.starts.resize(starts, 6);
        let before = target.clone();
        let mut lent = sound();
        assert_eq!(lent.compact(&mut target), 2);
        assert!(lent == sound() && target == before);
    }
}

#[test]
fn a_target_that_is_no_arena() {
    let mut target = sound();
    (target.words, target.starts) = (vec![9; 5], vec![9; 3]);
    (target.nodes, target.used) = (usize::MAX, 7);
    assert_eq!(sound().compact(&mut target), 0);
    assert_eq!(target.words, [0x3000_0001, 0, 0x4000_0001, 0, 0]);
    assert_eq!(target.starts, [0, 2, 0]);
    assert_eq!((target.nodes, target.used), (2, 4));

    (target.words, target.starts) = (vec![9; 3], vec![9; 3]);
    (target.nodes, target.used) = (usize::MAX, 7);
    assert_eq!(sound().compact(&mut target), 7);
    assert_eq!((target.words, target.starts), (vec![0; 3], vec![0; 3]));
    assert_eq!((target.nodes, target.used), (0, 0));
}

#[test]
fn nodes_that_are_refused() {
    let nodes: [(&[u32], u32); 18] = [
        (&[], 3),
        (&[0xb000_0000], 3),
        (&[0x4000_0001], 3),
        (&[0x4000_0001, 0x1000], 3),
        (&[0x4800_0001, 0], 3),
        (&[0x2000_0001, 8], 3),
        (&[0x4000_0001, 2], 4),
        (&[0x9000_0001, 0x0000_1000], 3),
        (&[0x9000_0001, 0x0000_2000], 3),
        (&[0x9000_0001, 0x0000_4000], 3),
        (&[0x9000_0001, 0x8000_0000], 3),
        (&[0x6000_0001, 0x8000_1000], 3),
        (&[0x6000_0001, 0x8000_2000], 3),
        (&[0x6000_0001, 0x8000_4000], 3),
        (&[0x9000_0001, 0x0000_8000], 4),
        (&[0x9000_0001, 0x4000_0000], 4),
        (&[0x6000_0001, 0xffff_8000], 4),
        (&[0x6000_0002, 0, 0], 5),
    ];
    for (node, number) in nodes {
        let mut lent = sound();
        assert_eq!(lent.intern(node), number, "{node:x?}");
        assert!(lent == sound(), "{node:x?}");
    }
}

#[test]
fn results() {
    let mut lent = sound();
    assert_eq!(lent.intern(&[0x6000_0001, 0]), 0);
    assert_eq!((lent.told[0], lent.nodes, lent.used), (2, 3, 6));
    assert_eq!(lent.words[4..], [0x6000_0001, 0, 0]);
    assert_eq!(lent.starts, [0, 2, 4, 0]);
    assert_eq!(lent.free_type_vars(), 0);
    assert_eq!(lent.length, 1);
    assert!(lent.vars.iter().all(|&index| index == 0), "zeros after a");
    assert_eq!(lent.write(ffi::lang_ty_display), 0);
    assert_eq!((lent.length, &lent.bytes[..8]), (3, &b"[a]PPPPP"[..]));
    assert_eq!(lent.bytes[8..], [80; 18]);
    assert_eq!(lent.simplify(), 0);
    assert_eq!(lent.told, [1, 2]);
}

#[test]
fn two_prints_of_a_name() {
    // Node 1 is a under the name `or`.
    let mut lent = sound();
    lent.table = b"\x02or".to_vec();
    lent.words[2] = 0x9000_0001;
    lent.bytes.truncate(4);
    assert_eq!(lent.write(ffi::lang_ty_display), 0);
    assert_eq!((lent.length, &lent.bytes[..]), (2, &b"orPP"[..]));
    assert_eq!(lent.write(ffi::lang_ty_display_nix), 0);
    assert_eq!((lent.length, &lent.bytes[..]), (4, &b"\"or\""[..]));
    lent.bytes.truncate(3);
    lent.length = 79;
    assert_eq!(lent.write(ffi::lang_ty_display_nix), 9);
    assert_eq!((lent.length, &lent.bytes[..]), (79, &[0; 3][..]));
}

/// The variable a alone, so that node 1 isn't there.
fn without_root() -> Lent {
    let mut lent = sound();
    lent.words[2..4].fill(0);
    lent.starts[1] = 0;
    (lent.nodes, lent.used) = (1, 2);
    lent
}

#[test]
fn which_number_comes_first() {
    let mut bad_table = sound();
    bad_table.table = vec![0];
    let mut unsound = sound();
    unsound.nodes = 3;
    assert_eq!(unsound.structurally_eq(&bad_table), 2, "the left first");
    assert_eq!(bad_table.structurally_eq(&unsound), 1);
    assert_eq!(without_root().structurally_eq(&unsound), 2, "before 6");
    assert_eq!(without_root().structurally_eq(&sound()), 6);
    let mut large = sound();
    large.words.resize(ffi::WORDS + 1, 0);
    assert_eq!(without_root().compact(&mut large), 2, "before 6");
    assert_eq!(bad_table.compact(&mut large), 1);
    assert_eq!(without_root().compact(&mut sound()), 6);
    assert_eq!(unsound.import(&mut bad_table), 2, "the source first");
    assert_eq!(bad_table.import(&mut unsound), 1);
    assert_eq!(without_root().import(&mut bad_table), 1, "before 6");
    assert_eq!(without_root().import(&mut large), 2, "before 6");
    assert_eq!(without_root().import(&mut sound()), 6);
    assert_eq!(bad_table.fits(&[]), 1, "before 13");
    assert_eq!(unsound.fits(&[]), 2, "before 13");
    assert_eq!(without_root().fits(&[]), 6, "before 13");
    assert_eq!(sound().fits(&[]), 13, "before 14");
    unsound.words[0] = 0;
    assert_eq!(unsound.intern(&[]), 2, "before 3");
}

#[test]
fn a_refused_table_has_no_count() {
    let count = |table: &[u8]| {
        let mut count = 79;
        // SAFETY: as above.
        let answer = unsafe { ffi::lang_ty_check_names(table.as_ptr(), table.len(), &mut count) };
        (answer, count)
    };
    assert_eq!(count(b""), (0, 0));
    assert_eq!(count(b"\x01p\x02pq"), (0, 2));
    assert_eq!(count(b"\x01p\x02p"), (1, 79));
}

#[test]
fn a_name_is_a_stretch_of_the_table() {
    let place = |table: &[u8], number| {
        let (mut start, mut length) = (77, 78);
        let bytes = table.as_ptr();
        // SAFETY: as above.
        let answer =
            unsafe { ffi::lang_ty_name_at(bytes, table.len(), number, &mut start, &mut length) };
        (answer, start, length)
    };
    assert_eq!(place(b"\x01p\x02pq", 0), (0, 1, 1));
    assert_eq!(place(b"\x01p\x02pq", 1), (0, 3, 2));
    assert_eq!(place(b"\x01p\x02pq", 2), (4, 77, 78));
    assert_eq!(place(b"\x01p\x02pq", u32::MAX), (4, 77, 78));
    assert_eq!(place(b"", 0), (4, 77, 78));
    assert_eq!(place(b"\x01p\x02p", 0), (1, 77, 78));
    assert_eq!(place(b"\x01p\x02p", 9), (1, 77, 78), "before 4");
}

#[test]
fn a_text_has_a_place_in_the_table() {
    assert_eq!(raw_find(b"\x01p\x02pq", b"p"), (0, 1, 0));
    assert_eq!(raw_find(b"\x01p\x02pq", b"pq"), (0, 1, 1));
    assert_eq!(raw_find(b"\x01p\x02pq", b"pp"), (0, 0, 1));
    assert_eq!(raw_find(b"\x01p\x02pq", b"pqr"), (0, 0, 2));
    assert_eq!(raw_find(b"\x01p\x02pq", b"\x01p"), (0, 0, 0));
    assert_eq!(raw_find(b"", b"p"), (0, 0, 0));
    let tables = [
        b"\x00".to_vec(),
        b"\x02p".to_vec(),
        b"\x01p\x01\x1f".to_vec(),
        b"\x01q\x01p".to_vec(),
        b"\x01p\x01p".to_vec(),
        b"\x01p\x02p".to_vec(),
        table_of(4_097, 4),
        last_name_longer(),
    ];
    for table in tables {
        for text in [&b""[..], b"p", b"0001", b"~"] {
            assert_eq!(raw_find(&table, text), (1, 77, 78), "{text:?}");
        }
    }
}
