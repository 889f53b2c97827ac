//! Types imported into an arena with names of its own: worked ones, and every refusal in its place. Random ones are in
//! importing_by_hand.

use coombtray::{
    ffi, import_from_arena, layout, on_large_stack, AttrSetTy, Field, Names, OutputTy, PrimitiveTy,
    Refusal, TyRef, TypeArena,
};

use crate::build::*;
use crate::finding::use_name;
use crate::names::as_many_as_can_be;

pub fn at(number: u32) -> TyRef {
    TyRef::from_raw(number)
}

/// Lent words and starts with their counters.
#[derive(Clone, PartialEq, Debug)]
pub struct Lent {
    pub words: Vec<u32>,
    pub starts: Vec<u32>,
    pub nodes: usize,
    pub used: usize,
}

impl Lent {
    /// Memory with these nodes and so many words and starts to spare.
    pub fn new(nodes: &[u32], spare: (usize, usize)) -> Lent {
        let mut starts = Vec::new();
        let mut start = 0;
        while start < nodes.len() {
            starts.push(start as u32);
            start += 1 + layout::count(nodes[start]);
        }
        let count = starts.len();
        starts.resize(count + spare.1, 0);
        let mut words = nodes.to_vec();
        words.resize(nodes.len() + spare.0, 0);
        Lent {
            words,
            starts,
            nodes: count,
            used: nodes.len(),
        }
    }

    /// The same memory with more nodes in what was spare.
    pub fn with(&self, more: &[u32]) -> Lent {
        let nodes = [&self.words[..self.used], more].concat();
        let mut lent = Lent::new(&nodes, (0, 0));
        lent.words.resize(self.words.len(), 0);
        lent.starts.resize(self.starts.len(), 0);
        lent
    }
}

/// The raw call's answer, and the number that it tells, which was 77.
pub fn raw(
    table: &[u8],
    source: &Lent,
    root: u32,
    target_table: &[u8],
    target: &mut Lent,
) -> [u32; 2] {
    let mut root_after = 77;
    // SAFETY: each pointer and length is that of a slice or a number that is borrowed through the call, to be written only where
    // the borrow is mutable.
    let answer = unsafe {
        ffi::lang_ty_import_from_arena(
            table.as_ptr(),
            table.len(),
            source.words.as_ptr(),
            source.words.len(),
            source.starts.as_ptr(),
            source.starts.len(),
            source.nodes,
            source.used,
            root,
            target_table.as_ptr(),
            target_table.len(),
            target.words.as_mut_ptr(),
            target.words.len(),
            target.starts.as_mut_ptr(),
            target.starts.len(),
            &mut target.nodes,
            &mut target.used,
            &mut root_after,
        )
    };
    [answer, root_after]
}

const DRIVE: [&str; 3] = ["Line", "pitch", "roll"];

/// { pitch?: float, roll: a } -> Line, where Line is a name for a; nodes 0 and 3 aren't part of it. The root is node 6.
fn drive() -> (TypeArena, TyRef) {
    let mut t = named(&DRIVE);
    int(&mut t);
    let a = var(&mut t, 0);
    let float = primitive(&mut t, PrimitiveTy::Float);
    put(&mut t, OutputTy::Named("pitch".into(), a));
    let mut fix = AttrSetTy::from_internal([("roll", a)], false);
    fix.fields.insert("pitch".into(), Field::optional(float));
    let fix = put(&mut t, OutputTy::AttrSet(fix));
    let line = put(&mut t, OutputTy::Named("Line".into(), a));
    let root = lambda(&mut t, fix, line);
    (t, root)
}

/// The words of the drive's five nodes with these numbers of its three names, where its first node gets this number.
fn drive_words(names: [u32; 3], first: u32) -> Vec<u32> {
    let [line, pitch, roll] = names.map(|name| name << 15);
    let pitch = 0x8000_0000 | pitch | first;
    let fix = [0x6000_0002, pitch, roll | first + 1];
    let float_and_a = [0x2000_0001, 3, 0x3000_0001, 0];
    let rest = [
        0x9000_0001,
        line | first + 1,
        0x5000_0002,
        first + 2,
        first + 3,
    ];
    [&float_and_a[..], &fix, &rest].concat()
}

/// Imports a type, and checks what must hold of every import that isn't refused.
pub fn import(target: &mut TypeArena, source: &TypeArena, ty: TyRef) -> TyRef {
    let (before, of) = (target.clone(), source.clone());
    let imported = import_from_arena(target, source, ty).unwrap();
    assert!(untouched(source, &of), "the source is only read");
    assert!(target.names() == before.names());
    assert!(target.words().starts_with(before.words()), "old nodes stay");
    assert!(target.nodes().take(before.len()).eq(before.nodes()));
    assert_eq!(source.structurally_eq(ty, target, imported), Ok(true));
    assert_eq!(target.structurally_eq(imported, source, ty), Ok(true));
    assert_eq!(target.display(imported), source.display(ty));
    assert_eq!(target.display_nix(imported), source.display_nix(ty));
    let after = target.clone();
    assert_eq!(import_from_arena(target, source, ty), Ok(imported), "again");
    assert!(untouched(target, &after), "a second import adds nothing");
    imported
}

#[test]
fn equal_tables() {
    let (source, root) = drive();
    let mut target = named(&DRIVE);
    assert_eq!(import(&mut target, &source, root), at(4));
    assert_eq!(target.words(), drive_words([0, 1, 2], 0));
}

#[test]
fn more_names_and_shifted_numbers() {
    let (source, root) = drive();
    let mut target = named(&["Line", "Target", "pitch", "po", "roll", "yaw"]);
    let null = primitive(&mut target, PrimitiveTy::Null);
    put(&mut target, OutputTy::Named("pitch".into(), null));
    assert_eq!(import(&mut target, &source, root), at(6));
    assert_eq!(target.words()[4..], drive_words([0, 2, 4], 2));
}

#[test]
fn fewer_names() {
    // `pitch` is in use, but not in this type.
    let (source, _) = drive();
    let mut target = named(&["Line"]);
    assert_eq!(import(&mut target, &source, at(5)), at(1));
    assert_eq!(target.words(), [0x3000_0001, 0, 0x9000_0001, 0]);
    assert_eq!(import(&mut target, &source, at(0)), at(2));
    let none = import_from_arena(&mut empty(), &source, at(0));
    assert_eq!(none, Ok(at(0)), "no name at all");
}

#[test]
fn parts_that_are_there() {
    let (source, root) = drive();
    let mut target = named(&["Line", "o", "pitch", "roll"]);
    let a = var(&mut target, 0);
    let line = put(&mut target, OutputTy::Named("Line".into(), a));
    // Two that differ by one thing each from a part of the type.
    put(&mut target, OutputTy::Named("o".into(), a));
    let float = primitive(&mut target, PrimitiveTy::Float);
    set(&mut target, &[("pitch", float), ("roll", a)]);
    assert_eq!(import(&mut target, &source, root), at(6));
    let mut fix = AttrSetTy::from_internal([("roll", a)], false);
    fix.fields.insert("pitch".into(), Field::optional(float));
    assert_eq!(target.get(at(5)), Ok(OutputTy::AttrSet(fix)));
    let (param, body) = (at(5), line);
    assert_eq!(target.get(at(6)), Ok(OutputTy::Lambda { param, body }));
    assert_eq!(target.len(), 7);
}

#[test]
fn what_is_there_is_found_in_a_full_target() {
    let (source, root) = drive();
    let names = Names::new(["Line", "a", "pitch", "roll"]).unwrap();
    let mut target = TypeArena::with_capacity(names, 13, 6).unwrap();
    put(&mut target, OutputTy::Top);
    assert_eq!(import(&mut target, &source, root), at(5));
    assert_eq!((target.words().len(), target.len()), (13, 6));
    let full = target.clone();
    assert_eq!(import(&mut target, &source, root), at(5));
    for (ty, number) in [(2, 1), (1, 2), (4, 3), (5, 4)] {
        assert_eq!(import(&mut target, &source, at(ty)), at(number));
    }
    assert!(untouched(&target, &full));
    let int = import_from_arena(&mut target, &source, at(0));
    assert_eq!(int.map_err(Refusal::number), Err(7));
    assert!(untouched(&target, &full));
}

#[test]
fn children_from_left_to_right() {
    // Each node once, however often it is met: b twice in the union, and all of the param again in the body.
    let mut source = named(&["p", "q"]);
    let [c, b, a] = [2, 1, 0].map(|index| var(&mut source, index));
    let members = union(&mut source, &[b, a, b]);
    let mut attrs = AttrSetTy::from_internal([("p", c), ("q", members)], true);
    attrs.dyn_ty = Some(a);
    let param = put(&mut source, OutputTy::AttrSet(attrs));
    let body = intersection(&mut source, &[a, param, c]);
    let root = lambda(&mut source, param, body);
    let mut target = named(&["p", "q"]);
    assert_eq!(import(&mut target, &source, root), at(6));
    let variables = [0x3000_0001, 2, 0x3000_0001, 1, 0x3000_0001, 0];
    let members = [0x7000_0003, 1, 2, 1];
    let attrs = [0x6c00_0003, 0, 0x8003, 2];
    let rest = [0x8000_0003, 2, 4, 0, 0x5000_0002, 4, 5];
    assert_eq!(
        target.words(),
        [&variables[..], &members, &attrs, &rest].concat()
    );
}

#[test]
fn the_widest_nodes() {
    let names: Vec<String> = (0..128).map(|k| format!("n{k:03}")).collect();
    let mut source = TypeArena::new(Names::new(&names[64..]).unwrap());
    let vars: Vec<TyRef> = (0..64).map(|index| var(&mut source, index)).collect();
    let fields = names[64..].iter().zip(&vars);
    let fields = fields.map(|(name, &ty)| (name.as_str(), ty));
    let mut attrs = AttrSetTy::from_internal(fields, false);
    attrs.dyn_ty = Some(union(&mut source, &vars));
    let root = put(&mut source, OutputTy::AttrSet(attrs));
    let mut target = TypeArena::new(Names::new(&names).unwrap());
    assert_eq!(import(&mut target, &source, root), root);
    let (from, to) = (source.words(), target.words());
    let (fields, others) = (from.len() - 65..from.len() - 1, ..from.len() - 65);
    assert_eq!(from[others], to[others]);
    let shifted = from[fields.clone()].iter().map(|word| word + (64 << 15));
    assert!(shifted.eq(to[fields].iter().copied()));
    assert_eq!(from.last(), to.last(), "the dynamic part");
}

#[test]
fn the_last_names_of_full_tables() {
    let texts = as_many_as_can_be();
    let few = [&texts[0], &texts[255], &texts[256], &texts[4_095]];
    let of_few = |names: Names| {
        let inner = [OutputTy::Top].into_iter();
        let nodes = few.iter().map(|&name| OutputTy::Named(name.clone(), at(0)));
        let last = OutputTy::Union((1..5).map(at).collect());
        TypeArena::from_nodes(names, inner.chain(nodes).chain([last])).unwrap()
    };
    let all = of_few(Names::new(&texts).unwrap());
    let alone = of_few(Names::new(few).unwrap());
    for (source, like) in [(&all, &alone), (&alone, &all), (&all, &all)] {
        let mut target = TypeArena::new(like.names().clone());
        assert_eq!(import(&mut target, source, at(5)), at(5));
        assert!(target == *like);
    }
}

/// A chain of all 4,096 nodes on 8 MiB of stack.
#[test]
fn deep_chain_on_the_large_stack() {
    let nodes = [OutputTy::Top].into_iter();
    let chain = (0..4_095).map(|ty| OutputTy::Named(DRIVE[ty as usize % 3].into(), at(ty)));
    let source = TypeArena::from_nodes(Names::new(DRIVE).unwrap(), nodes.chain(chain)).unwrap();
    on_large_stack(|| {
        let mut target = named(&["A", "Line", "p", "pitch", "r", "roll"]);
        assert_eq!(import(&mut target, &source, at(4_095)), at(4_095));
        assert!(target.nodes().eq(source.nodes()));
        let mut none = TypeArena::with_capacity(target.names().clone(), 8_191, 4_095).unwrap();
        let refused = import_from_arena(&mut none, &source, at(4_095));
        assert_eq!(refused.map_err(Refusal::number), Err(7));
        assert!(none.is_empty() && none.lent() == (256, 64));
    });
}

const TABLE: &[u8] = b"\x01p\x01q";

/// a, p as a name for a, q as a name for a, and [p].
const NODES: [u32; 8] = [
    0x3000_0001,
    0,
    0x9000_0001,
    0,
    0x9000_0001,
    0x8000,
    0x4000_0001,
    1,
];

#[test]
fn the_same_bytes_as_both_tables() {
    let source = Lent::new(&NODES, (0, 0));
    let mut target = Lent::new(&[], (6, 3));
    assert_eq!(raw(TABLE, &source, 3, TABLE, &mut target), [0, 2]);
    let p = [0x3000_0001, 0, 0x9000_0001, 0, 0x4000_0001, 1];
    assert_eq!(target, Lent::new(&p, (0, 0)));
    // The end of the source's table: q is the first name there.
    let mut target = Lent::new(&[], (4, 2));
    assert_eq!(raw(TABLE, &source, 2, &TABLE[2..], &mut target), [0, 1]);
    assert_eq!(target, Lent::new(&[0x3000_0001, 0, 0x9000_0001, 0], (0, 0)));
    let before = target.clone();
    assert_eq!(raw(TABLE, &source, 1, &TABLE[2..], &mut target), [12, 77]);
    assert_eq!(target, before);
}

/// All that is lent to a call.
#[derive(Clone, PartialEq, Debug)]
struct Lending {
    table: Vec<u8>,
    source: Lent,
    root: u32,
    target_table: Vec<u8>,
    target: Lent,
}

impl Lending {
    /// [p] from a source in which q is in use too, to a target that has int and room.
    fn sound() -> Lending {
        Lending {
            table: TABLE.to_vec(),
            source: Lent::new(&NODES, (3, 2)),
            root: 3,
            target_table: b"\x01a\x01p".to_vec(),
            target: Lent::new(&[0x2000_0001, 2], (9, 5)),
        }
    }

    fn call(&mut self) -> [u32; 2] {
        let target = &mut self.target;
        raw(
            &self.table,
            &self.source,
            self.root,
            &self.target_table,
            target,
        )
    }

    /// It is refused by the number, and all stays as it was lent.
    fn is_refused(mut self, number: u32) {
        let before = self.clone();
        assert_eq!(self.call(), [number, 77], "{before:?}");
        assert_eq!(self, before);
    }
}

/// What may be wrong, in the order in which it is found. None hides another.
const FAULTS: [(u32, fn(&mut Lending)); 7] = [
    (1, |l| l.table.push(0)),
    (2, |l| l.source.starts[4] = 1),
    (1, |l| l.target_table.push(0)),
    (2, |l| l.target.nodes += 1),
    (6, |l| l.root = 4),
    (12, |l| l.table[1] = b'o'),
    (7, |l| l.target.words.truncate(7)),
];

#[test]
fn which_number_comes_first() {
    let after = [0x3000_0001, 0, 0x9000_0001, 0x8001, 0x4000_0001, 2];
    let mut lent = Lending::sound();
    assert_eq!(lent.call(), [0, 3]);
    assert_eq!(lent.target, Lending::sound().target.with(&after));
    for some in 1..1 << FAULTS.len() {
        let mut lent = Lending::sound();
        let met = (0..FAULTS.len()).filter(|fault| some >> fault & 1 == 1);
        let met: Vec<usize> = met.collect();
        met.iter().for_each(|&fault| FAULTS[fault].1(&mut lent));
        lent.is_refused(FAULTS[met[0]].0);
    }
}

#[test]
fn two_of_a_target_that_has_the_type() {
    let has_it = |spoil: fn(&mut Lent)| {
        let mut lent = Lending::sound();
        assert_eq!(lent.call(), [0, 3]);
        spoil(&mut lent.target);
        lent
    };
    let mut again = has_it(|_| ());
    let before = again.clone();
    assert_eq!(again.call(), [0, 3]);
    assert_eq!(again, before);
    has_it(|target| target.words[10] = 1).is_refused(2);
    has_it(|target| target.starts[5] = 1).is_refused(2);
    has_it(|target| target.starts[1] = 1).is_refused(2);
    has_it(|target| target.used -= 1).is_refused(2);
    has_it(|target| target.words[5] = 0x1_0001).is_refused(2);
    has_it(|target| target.words.resize(ffi::WORDS + 1, 0)).is_refused(2);
    has_it(|target| target.starts.resize(ffi::STARTS + 1, 0)).is_refused(2);
}

#[test]
fn six_of_the_source_and_not_of_the_target() {
    let mut lent = Lending::sound();
    lent.target = lent
        .target
        .with(&[0x3000_0001, 1, 0x3000_0001, 2, 0x3000_0001, 3]);
    for root in [4, 5, 4_096, u32::MAX] {
        Lending {
            root,
            ..lent.clone()
        }
        .is_refused(6);
    }
    let mut empty = Lending::sound();
    empty.source = Lent::new(&[], (0, 0));
    for root in [0, u32::MAX] {
        Lending {
            root,
            ..empty.clone()
        }
        .is_refused(6);
    }
}

/// Every way in which a type can have a name: of a set, of an optional field, the last of several, and of a named type.
fn with_name(name: &str) -> Vec<OutputTy> {
    let field = |optional| Field {
        ty: at(0),
        optional,
    };
    let fields = |fields: &[(&str, bool)]| {
        let fields = fields.iter();
        let fields = fields.map(|&(name, optional)| (name.to_string(), field(optional)));
        AttrSetTy {
            fields: fields.collect(),
            dyn_ty: Some(at(0)),
            open: true,
        }
    };
    let sets = [
        fields(&[(name, false)]),
        fields(&[(name, true)]),
        fields(&[("a", false), ("b", true), (name, false)]),
        fields(&[(name, false), ("z", false)]),
    ];
    let mut nodes: Vec<OutputTy> = sets.map(OutputTy::AttrSet).into();
    nodes.push(OutputTy::Named(name.into(), at(0)));
    nodes
}

#[test]
fn twelve_for_reachable_names_alone() {
    for node in with_name("p") {
        // Above it is a list, and beside it a node without names; the node itself is number 1.
        let nodes = [
            OutputTy::Top,
            node,
            OutputTy::List(at(1)),
            OutputTy::List(at(0)),
        ];
        let names = Names::new(["a", "b", "p", "z"]).unwrap();
        let source = TypeArena::from_nodes(names, nodes).unwrap();
        let mut target = named(&["a", "b", "z"]);
        int(&mut target);
        let before = target.clone();
        for root in [at(1), at(2)] {
            let refused = import_from_arena(&mut target, &source, root);
            assert_eq!(refused.map_err(Refusal::number), Err(12));
            assert!(untouched(&target, &before));
        }
        assert_eq!(import(&mut target, &source, at(3)), at(2));
        for near in ["P", "o", "pp", "q", " p"] {
            let mut target = named(&["a", "b", "z", near]);
            let refused = import_from_arena(&mut target, &source, at(1));
            assert_eq!(refused.map_err(Refusal::number), Err(12), "{near}");
            target.add_names(["p"]).unwrap();
            assert_eq!(import(&mut target, &source, at(1)), at(1));
        }
    }
}

#[test]
fn seven_takes_back_what_was_added() {
    let (source, root) = drive();
    let from = Lent::new(source.words(), (0, 0));
    let table = source.names().table();
    let target_table = b"\x04Line\x01a\x05pitch\x04roll";
    let (words, nodes) = (drive_words([0, 2, 3], 1), 5);
    for spare in 0..=words.len() {
        for starts in 0..=nodes {
            let before = Lent::new(&[0x1000_0000], (spare, starts));
            let mut target = before.clone();
            let answer = raw(table, &from, root.into_raw(), target_table, &mut target);
            let fits = spare == words.len() && starts == nodes;
            assert_eq!(answer, if fits { [0, 5] } else { [7, 77] });
            assert_eq!(target, if fits { before.with(&words) } else { before });
        }
    }
}

#[test]
fn numbers_found_before_are_of_the_targets_names() {
    // Both have sought names, of which `b` and `c` have other numbers in the other table.
    let (mut source, mut target) = (named(&["a", "b", "c"]), named(&["b", "c", "d"]));
    let root = var(&mut source, 0);
    let alias = |name: &str| Ok(OutputTy::Named(name.into(), root));
    for name in ["a", "b", "c"] {
        assert_eq!(use_name(&mut source, name), alias(name));
    }
    assert_eq!(use_name(&mut target, "c"), alias("c"));
    // Node 2 is `b`.
    let b = import(&mut target, &source, at(2));
    assert_eq!(target.intern(OutputTy::Named("b".into(), root)), Ok(b));
    for name in ["b", "c", "d"] {
        assert_eq!(use_name(&mut target, name), alias(name));
    }
    assert_eq!(use_name(&mut target, "a").unwrap_err().number(), 4);
    target.add_names(["a"]).unwrap();
    for name in ["a", "b", "c", "d"] {
        assert_eq!(use_name(&mut target, name), alias(name));
    }
}
