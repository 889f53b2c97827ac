//! Fixes held against types: each rule of what fits, and every refusal in its place. Random ones are in fitting_by_hand.

use coombtray::{
    ffi, AttrSetTy, Field, Names, OutputTy, PrimitiveTy, Refusal, TyRef, TypeArena, Value,
};

use crate::build::*;
use crate::importing::{at, Lent};

/// The raw call's answer, and what it tells, which was 77.
pub fn raw(table: &[u8], arena: &Lent, root: u32, fix: &[u32]) -> [u32; 2] {
    let mut told = 77;
    // SAFETY: each pointer and length is that of a slice or a number that is borrowed through the call, to be written only where
    // the borrow is mutable.
    let answer = unsafe {
        ffi::lang_ty_fits(
            table.as_ptr(),
            table.len(),
            arena.words.as_ptr(),
            arena.words.len(),
            arena.starts.as_ptr(),
            arena.starts.len(),
            arena.nodes,
            arena.used,
            root,
            fix.as_ptr(),
            fix.len(),
            &mut told,
        )
    };
    [answer, told]
}

/// One value of each kind.
pub fn one_of_each() -> [Value; 8] {
    [
        Value::Null,
        Value::Bool(true),
        Value::Int(-3),
        Value::Float(0.25),
        Value::String("roll".into()),
        Value::Path("./drive".into()),
        Value::List(vec![]),
        Value::Set([].into()),
    ]
}

const INT: Value = Value::Int(7);

pub fn set_of(fields: &[(&str, Value)]) -> Value {
    let fields = fields.iter().cloned();
    Value::Set(fields.map(|(name, value)| (name.into(), value)).collect())
}

/// Which kinds of values the type takes, of one of each.
fn kinds(t: &TypeArena, ty: TyRef) -> Vec<usize> {
    let values = one_of_each();
    let taken = (0..8).filter(|&kind| t.fits(ty, &values[kind]).unwrap());
    taken.collect()
}

#[test]
fn primitives() {
    let taken: [(PrimitiveTy, &[usize]); 8] = [
        (PrimitiveTy::Null, &[0]),
        (PrimitiveTy::Bool, &[1]),
        (PrimitiveTy::Int, &[2]),
        (PrimitiveTy::Float, &[3]),
        (PrimitiveTy::String, &[4]),
        (PrimitiveTy::Path, &[5]),
        (PrimitiveTy::Uri, &[4]),
        (PrimitiveTy::Number, &[2, 3]),
    ];
    let mut t = empty();
    for (of, taken) in taken {
        let ty = primitive(&mut t, of);
        assert_eq!(kinds(&t, ty), taken, "{of}");
        let not = put(&mut t, OutputTy::Neg(ty));
        assert!(kinds(&t, not)
            .into_iter()
            .eq((0..8).filter(|kind| !taken.contains(kind))));
        let again = put(&mut t, OutputTy::Neg(not));
        assert_eq!(kinds(&t, again), taken, "{of} twice negated");
    }
}

#[test]
fn types_without_parts_and_lambdas() {
    let mut t = empty();
    let any = put(&mut t, OutputTy::Top);
    let never = put(&mut t, OutputTy::Bottom);
    let function = lambda(&mut t, never, any);
    assert_eq!(kinds(&t, any), [0, 1, 2, 3, 4, 5, 6, 7]);
    assert_eq!(kinds(&t, never), []);
    assert_eq!(kinds(&t, function), []);
    for (of, taken) in [(any, vec![]), (function, (0..8).collect())] {
        let not = put(&mut t, OutputTy::Neg(of));
        assert_eq!(kinds(&t, not), taken);
    }
}

#[test]
fn lists() {
    let mut t = empty();
    let int = int(&mut t);
    let never = put(&mut t, OutputTy::Bottom);
    let (ints, none) = (list(&mut t, int), list(&mut t, never));
    let lists = list(&mut t, ints);
    assert_eq!(kinds(&t, ints), [6], "only lists");
    assert_eq!(kinds(&t, none), [6], "the empty one");
    let fits = |ty, items: &[Value]| t.fits(ty, &Value::List(items.to_vec())).unwrap();
    assert!(fits(ints, &[INT, INT]));
    assert!(!fits(ints, &[INT, Value::Null]));
    assert!(!fits(ints, &[Value::Null, INT, INT]));
    assert!(!fits(none, &[INT]));
    assert!(fits(lists, &[Value::List(vec![]), Value::List(vec![INT])]));
    assert!(!fits(lists, &[INT]));
    assert!(!fits(lists, &[Value::List(vec![Value::List(vec![])])]));
}

#[test]
fn unions_intersections_and_names() {
    let mut t = named(&["Line"]);
    let [null, int, number] =
        [PrimitiveTy::Null, PrimitiveTy::Int, PrimitiveTy::Number].map(|of| primitive(&mut t, of));
    for (members, one, all) in [
        (vec![null], vec![0], vec![0]),
        (vec![null, int], vec![0, 2], vec![]),
        (vec![int, number], vec![2, 3], vec![2]),
        (vec![number, int, int], vec![2, 3], vec![2]),
        (vec![int, number, null], vec![0, 2, 3], vec![]),
    ] {
        let (either, both) = (union(&mut t, &members), intersection(&mut t, &members));
        assert_eq!(kinds(&t, either), one);
        assert_eq!(kinds(&t, both), all);
        for (of, taken) in [(either, one), (both, all)] {
            let line = put(&mut t, OutputTy::Named("Line".into(), of));
            assert_eq!(kinds(&t, line), taken);
        }
    }
}

/// The type of a set with p: int, q?: int, and a type of its other fields.
fn p_and_q(t: &mut TypeArena, dyn_ty: Option<TyRef>, open: bool) -> TyRef {
    let int = int(t);
    let q = ("q".to_string(), Field::optional(int));
    let p = ("p".to_string(), Field::required(int));
    let fields = [p, q].into();
    put(
        t,
        OutputTy::AttrSet(AttrSetTy {
            fields,
            dyn_ty,
            open,
        }),
    )
}

const P: (&str, Value) = ("p", INT);
const Q: (&str, Value) = ("q", INT);
const R: (&str, Value) = ("r", Value::Null);
const S: (&str, Value) = ("s", Value::Null);

#[test]
fn sets() {
    let mut t = named(&["p", "q", "r", "s"]);
    let null = primitive(&mut t, PrimitiveTy::Null);
    for (dyn_ty, open) in [
        (None, false),
        (None, true),
        (Some(null), false),
        (Some(null), true),
    ] {
        let ty = p_and_q(&mut t, dyn_ty, open);
        assert_eq!(kinds(&t, ty), [], "p is missing, or it is no set");
        let fits = |fields: &[(&str, Value)]| t.fits(ty, &set_of(fields)).unwrap();
        assert!(fits(&[P]));
        assert!(fits(&[P, Q]));
        assert!(!fits(&[Q]), "p is missing");
        assert!(!fits(&[Q, R]), "p is missing");
        assert!(!fits(&[("p", Value::Null)]), "other fields may be null");
        assert!(!fits(&[P, ("q", Value::Null)]), "optional, but an int");
        let others = dyn_ty.is_some() || open;
        assert_eq!(fits(&[P, R]), others);
        assert_eq!(fits(&[P, Q, R, S]), others);
        // Where there is a type for other fields they must fit it, open or not.
        assert_eq!(fits(&[P, ("r", INT)]), dyn_ty.is_none() && open);
        assert_eq!(fits(&[P, R, ("s", INT)]), dyn_ty.is_none() && open);
    }
}

#[test]
fn empty_sets_and_sets_in_sets() {
    let mut t = named(&["p", "q"]);
    let closed = put(&mut t, OutputTy::AttrSet(AttrSetTy::new()));
    let open = put(
        &mut t,
        OutputTy::AttrSet(AttrSetTy::from_internal([], true)),
    );
    for (ty, other) in [(closed, false), (open, true)] {
        assert_eq!(kinds(&t, ty), [7], "only sets");
        assert_eq!(t.fits(ty, &set_of(&[("q", INT)])), Ok(other));
    }
    let outer = set(&mut t, &[("p", closed), ("q", open)]);
    let inner = set_of(&[("p", Value::Null)]);
    let (none, some) = (Value::Set([].into()), inner);
    for (p, q, fits) in [(&none, &some, true), (&some, &none, false)] {
        let fix = set_of(&[("p", p.clone()), ("q", q.clone())]);
        assert_eq!(t.fits(outer, &fix), Ok(fits));
    }
}

#[test]
fn contents_of_a_value_make_no_difference() {
    let mut t = empty();
    let ty = primitive(&mut t, PrimitiveTy::Number);
    for value in [i64::MIN, 0, i64::MAX].map(Value::Int) {
        assert_eq!(t.fits(ty, &value), Ok(true));
    }
    for value in [f64::NAN, f64::INFINITY, -0.0].map(Value::Float) {
        assert_eq!(t.fits(ty, &value), Ok(true));
    }
    let uri = primitive(&mut t, PrimitiveTy::Uri);
    for text in ["", "é\0", "https://drive"] {
        assert_eq!(t.fits(uri, &Value::String(text.into())), Ok(true));
        assert_eq!(t.fits(uri, &Value::Path(text.into())), Ok(false));
    }
}

fn number(answer: Result<bool, Refusal>) -> Result<bool, u32> {
    answer.map_err(Refusal::number)
}

#[test]
fn names_of_the_arenas_table() {
    let mut t = named(&["b", "d"]);
    let int = int(&mut t);
    let attrs = AttrSetTy::from_internal([("b", int)], true);
    let ty = put(&mut t, OutputTy::AttrSet(attrs));
    let with = |name| set_of(&[("b", INT), (name, Value::Null)]);
    let within = |value| Value::List(vec![INT, set_of(&[("b", value)])]);
    // No node uses d, which is a name of the table all the same.
    assert_eq!(number(t.fits(ty, &with("d"))), Ok(true));
    let lacking = ["a", "c", "e", "", "é", "B", "b "];
    for name in lacking {
        assert_eq!(
            number(t.fits(ty, &set_of(&[(name, INT)]))),
            Err(13),
            "{name}"
        );
        assert_eq!(number(t.fits(ty, &with(name))), Err(13), "{name}");
        assert_eq!(number(t.fits(ty, &within(with(name)))), Err(13), "{name}");
        assert_eq!(number(t.fits(at(9), &with(name))), Err(6), "6 is first");
    }
    // The numbers of b and d are others then, and numbers that were found before are of no use.
    let before = t.clone();
    t.add_names(["a", "c", "e"]).unwrap();
    for name in ["a", "c", "d", "e"] {
        assert_eq!(number(t.fits(ty, &with(name))), Ok(true));
        let without_b = set_of(&[(name, INT)]);
        assert_eq!(number(t.fits(ty, &without_b)), Ok(false));
    }
    let mut target = named(&["b"]);
    use_b(&mut target);
    assert_eq!(t.compact_into(ty, &mut target), Ok(ty));
    assert_eq!(number(target.fits(ty, &with("d"))), Ok(true));
    assert_eq!(number(before.fits(ty, &with("a"))), Err(13));
}

/// A node with the name b, so that the arena knows the number of it.
fn use_b(t: &mut TypeArena) {
    let any = put(t, OutputTy::Top);
    set(t, &[("b", any)]);
}

/// So many values in all: a value, or a list of such, or a set with such.
fn deep(values: usize, inner: Value, around: fn(Value) -> Value) -> Value {
    (1..values).fold(inner, |inner, _| around(inner))
}

const IN_A_LIST: fn(Value) -> Value = |inner| Value::List(vec![inner]);
const IN_A_SET: fn(Value) -> Value = |inner| Value::Set([("p".to_string(), inner)].into());

/// A type of so many nodes: int, and lists or sets over it.
fn deep_type(nodes: u32, around: fn(TyRef) -> OutputTy) -> (TypeArena, TyRef) {
    let nodes = (1..nodes).map(|number| around(at(number - 1)));
    let nodes: Vec<OutputTy> = [OutputTy::Primitive(PrimitiveTy::Int)]
        .into_iter()
        .chain(nodes)
        .collect();
    let root = at(nodes.len() as u32 - 1);
    let names = Names::new(["o", "p"]).unwrap();
    (TypeArena::from_nodes(names, nodes).unwrap(), root)
}

#[test]
fn as_many_values_as_can_be() {
    let mut t = named(&["p"]);
    let int = int(&mut t);
    let ints = list(&mut t, int);
    let many = |count| Value::List(vec![INT; count]);
    assert_eq!(number(t.fits(ints, &many(1_023))), Ok(true));
    assert_eq!(number(t.fits(int, &many(1_023))), Ok(false));
    for count in [1_024, 1_025, 70_000] {
        assert_eq!(number(t.fits(ints, &many(count))), Err(13));
        assert_eq!(number(t.fits(int, &IN_A_SET(many(count)))), Err(13));
        assert_eq!(number(t.fits(at(9), &many(count))), Err(6), "6 is first");
    }
    // 1 + 31 * 33 are 1,024 values.
    let square = |last| {
        let mut lists = vec![many(32); 30];
        lists.push(Value::List([vec![INT; 31], vec![last]].concat()));
        Value::List(lists)
    };
    let lists = list(&mut t, ints);
    assert_eq!(number(t.fits(lists, &square(INT))), Ok(true));
    assert_eq!(number(t.fits(lists, &square(Value::Null))), Ok(false));
    assert_eq!(number(t.fits(lists, &square(many(1)))), Err(13));
}

#[test]
fn as_many_fields_as_can_be() {
    let names: Vec<String> = (0..1_024).map(|k| format!("n{k:04}")).collect();
    let mut t = TypeArena::new(Names::new(&names).unwrap());
    let int = int(&mut t);
    let dynamic = AttrSetTy {
        dyn_ty: Some(int),
        ..AttrSetTy::new()
    };
    let ty = put(&mut t, OutputTy::AttrSet(dynamic));
    let fields = |count, last| {
        let fields = names.iter().take(count).map(|name| (name.clone(), INT));
        let mut fields: std::collections::BTreeMap<String, Value> = fields.collect();
        *fields.get_mut(&names[count - 1]).unwrap() = last;
        Value::Set(fields)
    };
    assert_eq!(number(t.fits(ty, &fields(1_023, INT))), Ok(true));
    assert_eq!(number(t.fits(ty, &fields(1_023, Value::Null))), Ok(false));
    assert_eq!(number(t.fits(ty, &fields(1_024, INT))), Err(13));
}

#[test]
fn values_as_deep_as_can_be() {
    let in_a_set = |ty| OutputTy::AttrSet(AttrSetTy::from_internal([("p", ty)], false));
    let chains: [(fn(TyRef) -> OutputTy, fn(Value) -> Value); 2] =
        [(OutputTy::List, IN_A_LIST), (in_a_set, IN_A_SET)];
    for (of_type, of_value) in chains {
        let (t, root) = deep_type(1_024, of_type);
        let fits = |values, inner| number(t.fits(root, &deep(values, inner, of_value)));
        assert_eq!(fits(1_024, INT), Ok(true));
        assert_eq!(fits(1_024, Value::Null), Ok(false), "at the bottom");
        assert_eq!(fits(1_023, INT), Ok(false));
        assert_eq!(fits(1_025, INT), Err(13));
    }
}

/// A value that no stack is deep enough for is refused as any other; it is taken apart by hand, since Rust's own way is recursive.
#[test]
fn a_value_deeper_than_any_stack() {
    let mut t = empty();
    let any = put(&mut t, OutputTy::Top);
    let mut value = deep(1_000_000, Value::Null, IN_A_LIST);
    assert_eq!(number(t.fits(any, &value)), Err(13));
    while let Value::List(mut items) = value {
        value = items.pop().unwrap();
    }
    assert_eq!(number(t.fits(any, &value)), Ok(true));
}

/// Every kind of node that has a child, with this one; node 0 is any.
fn above(child: TyRef) -> Vec<OutputTy> {
    let set = |fields: Vec<Field>, dyn_ty| AttrSetTy {
        fields: ["p", "q"]
            .map(String::from)
            .into_iter()
            .zip(fields)
            .collect(),
        dyn_ty,
        open: true,
    };
    let (any, optional) = (Field::required(at(0)), Field::optional(child));
    vec![
        OutputTy::List(child),
        OutputTy::Neg(child),
        OutputTy::Named("p".into(), child),
        OutputTy::Union(vec![at(0), child]),
        OutputTy::Intersection(vec![child, at(0)]),
        OutputTy::Lambda {
            param: child,
            body: at(0),
        },
        OutputTy::Lambda {
            param: at(0),
            body: child,
        },
        OutputTy::AttrSet(set(vec![Field::required(child), any], None)),
        OutputTy::AttrSet(set(vec![any, optional], None)),
        OutputTy::AttrSet(set(vec![any, any], Some(child))),
    ]
}

#[test]
fn fourteen_for_reachable_variables_alone() {
    let nodes = [OutputTy::Top, OutputTy::TyVar(u32::MAX), OutputTy::Bottom];
    let kinds = above(at(1)).len() as u32;
    let nodes = nodes.into_iter().chain(above(at(1))).chain(above(at(2)));
    let below = nodes.clone().count() as u32;
    let lists = (0..below).map(|number| OutputTy::Union(vec![at(number), at(number)]));
    let names = Names::new(["p", "q"]).unwrap();
    let t = TypeArena::from_nodes(names, nodes.chain(lists)).unwrap();
    for number_of in 0..t.len() as u32 {
        // Each of the last nodes has one of the first below it.
        let first = number_of % below;
        let has = first == 1 || (3..3 + kinds).contains(&first);
        for value in one_of_each() {
            let answer = number(t.fits(at(number_of), &value));
            assert_eq!(answer == Err(14), has, "node {number_of}");
            assert!(has || answer.is_ok(), "node {number_of}");
        }
    }
}

const TABLE: &[u8] = b"\x01p\x01q";

/// int, [int], { p: int, ... }, any and null.
const NODES: [u32; 9] = [
    0x2000_0001,
    2,
    0x4000_0001,
    0,
    0x6800_0001,
    0,
    0x1000_0000,
    0x2000_0001,
    0,
];

/// What the raw call tells of a fix and a node, all of which stay.
fn told(root: u32, fix: &[u32]) -> [u32; 2] {
    let lent = Lent::new(&NODES, (3, 2));
    let told = raw(TABLE, &lent, root, fix);
    assert_eq!(lent, Lent::new(&NODES, (3, 2)), "it is only read");
    told
}

const ONE: u32 = 0x2000_0000;

#[test]
fn words_that_are_a_fix() {
    let words: [(u32, &[u32], u32); 13] = [
        (0, &[ONE], 1),
        (4, &[ONE], 0),
        (0, &[ONE, ONE], 1),
        (0, &[0, ONE], 1),
        (0, &[ONE, 0], 0),
        (1, &[0x6000_0000], 1),
        (1, &[ONE, 0x6000_0003, 0, 0, 0], 1),
        (1, &[ONE, 0, 0x6000_0003, 0, 1, 0], 0),
        // Two values that nothing leads to, the second of them over the first.
        (1, &[0, 0x6000_0001, 0, ONE, 0x6000_0001, 2], 1),
        (2, &[ONE, 0x7000_0001, 0], 1),
        (2, &[ONE, 0x7000_0001, 0x8000], 0),
        (2, &[0, ONE, 0x7000_0002, 1, 0x8000], 1),
        (2, &[0, ONE, 0x7000_0002, 0, 0x8001], 0),
    ];
    for (root, fix, fits) in words {
        assert_eq!(told(root, fix), [0, fits], "{fix:x?}");
    }
}

/// The example of docs/HOST.md: { roll = 0.25; jacks = [ 1 2 ]; }.
#[test]
fn words_of_the_document() {
    let mut t = named(&["jacks", "roll"]);
    let int = int(&mut t);
    let float = primitive(&mut t, PrimitiveTy::Float);
    let ints = list(&mut t, int);
    let lent = |t: &TypeArena, root: TyRef| {
        let words = [
            0x2000_0000,
            0x6000_0002,
            0,
            0,
            0x3000_0000,
            0x7000_0002,
            1,
            0x8002,
        ];
        let lent = Lent::new(t.words(), (0, 0));
        raw(t.names().table(), &lent, root.into_raw(), &words)
    };
    let ty = set(&mut t, &[("jacks", ints), ("roll", float)]);
    assert_eq!(lent(&t, ty), [0, 1]);
    let ty = set(&mut t, &[("jacks", ints), ("roll", int)]);
    assert_eq!(lent(&t, ty), [0, 0]);
}

/// Words that are no fix, with a table of two names.
fn broken() -> Vec<Vec<u32>> {
    let set = |fields: &[u32]| [&[ONE, 0x7000_0000 | fields.len() as u32], fields].concat();
    let mut words = vec![
        vec![],
        vec![u32::MAX],
        vec![0x6000_0001],
        vec![0x6000_ffff],
        vec![ONE, 0x6000_0002, 0],
        vec![0x6000_0001, 0],
        vec![ONE, 0x6000_0001, 1],
        vec![ONE, 0x6000_0001, 2, ONE],
        vec![ONE, 0x6000_0001, u32::MAX],
        vec![0x7000_0001],
        vec![ONE, 0x7000_0002, 0],
        vec![0x7000_0001, 0],
        set(&[1]),
        set(&[0xfff]),
        // A name that isn't in the table, one that repeats, and names that fall.
        set(&[2 << 15]),
        set(&[0xffff << 15]),
        set(&[0, 2 << 15]),
        set(&[0, 0]),
        set(&[1 << 15, 1 << 15]),
        set(&[1 << 15, 0]),
        set(&[0, 1 << 15, 1 << 15]),
    ];
    words.extend((8..16).map(|kind| vec![kind << 28]));
    words.extend((0..6).map(|kind| vec![kind << 28 | 1, 0]));
    words.extend((0..6).map(|kind| vec![0, kind << 28 | 1, 0]));
    let zero_in_heads = (0..8).flat_map(|kind| (16..28).map(move |bit| kind << 28 | 1 << bit));
    words.extend(zero_in_heads.map(|head| vec![head]));
    words.extend((12..32).map(|bit| vec![ONE, 0x6000_0001, 1 << bit]));
    // Zero fields, and the mark of an optional field.
    words.extend([12, 13, 14, 31].map(|bit| set(&[1 << bit])));
    words
}

#[test]
fn thirteen() {
    for fix in broken() {
        assert_eq!(told(3, &fix), [13, 77], "{fix:x?}");
        // Where nothing leads to it the layout counts as well.
        let fits = if fix.is_empty() { [0, 1] } else { [13, 77] };
        assert_eq!(told(3, &[&fix[..], &[ONE]].concat()), fits, "{fix:x?}");
    }
}

#[test]
fn values_and_children_by_the_raw_call() {
    let ones = |count| vec![ONE; count];
    assert_eq!(told(0, &ones(1_024)), [0, 1]);
    assert_eq!(told(0, &ones(1_025)), [13, 77]);
    assert_eq!(told(0, &ones(100_000)), [13, 77]);
    // The last value is a list of the last but one, and so the 1,024th or the 1,025th.
    let listed = |count: u32| [ones(count as usize), vec![0x6000_0001, count - 1]].concat();
    assert_eq!(told(1, &listed(1_023)), [0, 1]);
    assert_eq!(told(4, &listed(1_023)), [0, 0]);
    assert_eq!(told(1, &listed(1_024)), [13, 77]);
    // As many children as a head can count, one of which may be no int; and one word too few.
    let mut wide = [vec![ONE, 0, 0x6000_ffff], vec![0; 65_535]].concat();
    assert_eq!(told(1, &wide), [0, 1]);
    assert_eq!(told(1, &wide[..65_537]), [13, 77]);
    wide[65_537] = 1;
    assert_eq!(told(1, &wide), [0, 0]);
    // 1,022 lists of so many words: values count and words don't.
    let lists = (0..1_022).flat_map(|_| [vec![0x6000_0100], vec![0; 256]].concat());
    let long = [ONE].into_iter().chain(lists).chain([0x6000_0001, 0]);
    let long: Vec<u32> = long.collect();
    assert_eq!(told(1, &long), [0, 1]);
    assert_eq!(told(1, &[&long[..], &[ONE]].concat()), [13, 77]);
}

/// Each list holds the one before it twice, 1,000 lists deep: to visit what is shared each time would never end.
#[test]
fn values_that_are_shared() {
    let pair = |first: u32, second: u32| [0x6000_0002, first, second];
    let (t, root) = deep_type(1_001, OutputTy::List);
    let lent = Lent::new(t.words(), (0, 0));
    for (odd, fits) in [(ONE, 1), (0, 0)] {
        let ones = (1..=1_000).flat_map(|number| pair(number - 1, number - 1));
        let shared: Vec<u32> = [odd].into_iter().chain(ones).collect();
        let told = raw(t.names().table(), &lent, root.into_raw(), &shared);
        assert_eq!(told, [0, fits]);
    }
}

/// All that is lent to a call.
#[derive(Clone, PartialEq, Debug)]
struct Lending {
    table: Vec<u8>,
    arena: Lent,
    root: u32,
    fix: Vec<u32>,
}

/// What may be wrong, in the order in which it is found. None hides another.
const FAULTS: [(u32, fn(&mut Lending)); 5] = [
    (1, |l| l.table.push(0)),
    (2, |l| l.arena.starts[5] = 1),
    (6, |l| l.root = 5),
    (13, |l| l.fix.push(0x8000_0000)),
    // The int of the list is a variable.
    (14, |l| l.arena.words[0] = 0x3000_0001),
];

#[test]
fn which_number_comes_first() {
    for some in 0..1 << FAULTS.len() {
        let mut lent = Lending {
            table: TABLE.to_vec(),
            arena: Lent::new(&NODES, (3, 2)),
            root: 1,
            fix: vec![ONE, 0x6000_0001, 0],
        };
        let met = (0..FAULTS.len()).filter(|fault| some >> fault & 1 == 1);
        let met: Vec<usize> = met.collect();
        met.iter().for_each(|&fault| FAULTS[fault].1(&mut lent));
        let before = lent.clone();
        let told = raw(&lent.table, &lent.arena, lent.root, &lent.fix);
        let answer = met.first().map_or([0, 1], |&first| [FAULTS[first].0, 77]);
        assert_eq!(told, answer, "{lent:?}");
        assert_eq!(lent, before);
    }
}
