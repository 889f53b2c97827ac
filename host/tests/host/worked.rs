//! The worked types of document 01, and small types worked out by hand.

use std::cmp::Ordering;

use coombtray::{
    compare_names, sheet_line, tyvar_name, AttrSetTy, Field, Names, OutputTy, PrimitiveTy, Refusal,
    TyRef, TypeArena,
};

use crate::build::*;

type Leaf = fn(&mut TypeArena) -> TyRef;
type List = fn(&mut TypeArena, &[TyRef]) -> TyRef;

const A: Leaf = |t| var(t, 0);
const B: Leaf = |t| var(t, 1);
const NEVER: Leaf = |t| put(t, OutputTy::Bottom);
const ANY: Leaf = |t| put(t, OutputTy::Top);

/// A list of two members.
fn pair(
    list: List,
    left: impl Fn(&mut TypeArena) -> TyRef,
    right: impl Fn(&mut TypeArena) -> TyRef,
) -> impl Fn(&mut TypeArena) -> TyRef {
    move |t| {
        let members = [left(t), right(t)];
        list(t, &members)
    }
}

/// The text after `simplify`, and the passes.
fn simplified(build: impl Fn(&mut TypeArena) -> TyRef) -> (String, u32) {
    let mut arena = empty();
    let root = build(&mut arena);
    let done = arena.simplify(root).unwrap();
    (arena.display(done.root).unwrap(), done.passes)
}

#[test]
fn variables() {
    let names = [25, 26, 4294967294, 4294967295].map(tyvar_name);
    assert_eq!(names, ["z", "a1", "u165191049", "?"]);
}

#[test]
fn lists_are_simplified() {
    let gives = |text: &str, passes| (text.to_string(), passes);
    assert_eq!(simplified(pair(union, A, int)), gives("int", 2));
    assert_eq!(simplified(pair(union, A, B)), gives("a", 2));
    assert_eq!(simplified(pair(union, A, NEVER)), gives("a", 2));
    assert_eq!(simplified(pair(union, NEVER, A)), gives("never", 2));
    let inner = pair(intersection, ANY, A);
    assert_eq!(simplified(pair(union, int, inner)), gives("any", 2));
    let inner = pair(union, A, B);
    assert_eq!(simplified(pair(intersection, inner, int)), gives("int", 3));
}

#[test]
fn a_variable_of_both_signs_stays() {
    let mut t = empty();
    let members = [var(&mut t, 0), int(&mut t)];
    let body = union(&mut t, &members);
    let root = lambda(&mut t, members[0], body);
    let before = t.clone();
    let done = t.simplify(root).unwrap();
    assert_eq!((done.root, done.passes), (root, 2));
    assert!(t == before);
    assert_eq!(t.display(root).unwrap(), "a -> a | int");
}

/// The first of the pair after so many steps.
fn ladder(t: &mut TypeArena, steps: u32) -> TyRef {
    let mut pair = [var(t, 0), var(t, 1)];
    for step in 1..=steps {
        let [first, second] = pair;
        let put = if step % 2 == 1 { union } else { intersection };
        pair = [put(t, &[first, second]), put(t, &[second, first])];
    }
    pair[0]
}

#[test]
fn ladders() {
    assert_eq!(simplified(|t| ladder(t, 6)), ("a".to_string(), 6));
    assert_eq!(simplified(|t| ladder(t, 7)), ("a | b".to_string(), 6));
}

#[test]
fn set_operations() {
    let mut t = empty();
    let [null, bool] = [PrimitiveTy::Null, PrimitiveTy::Bool].map(|of| primitive(&mut t, of));
    let members = [int(&mut t), null, union(&mut t, &[null, bool])];
    let root = union(&mut t, &members);
    let root = t.normalize_set_ops(root).unwrap();
    assert_eq!(t.display(root).unwrap(), "null | bool | int");
}

#[test]
fn sets_in_print() {
    let mut t = named(&["roll angle", "pitch"]);
    let closed = put(&mut t, OutputTy::AttrSet(AttrSetTy::new()));
    let open = put(
        &mut t,
        OutputTy::AttrSet(AttrSetTy::from_internal([], true)),
    );
    assert_eq!(t.display(closed).unwrap(), "{  }");
    assert_eq!(t.display(open).unwrap(), "{ ... }");
    let mut attrs = AttrSetTy::from_internal([("roll angle", open)], true);
    attrs.fields.insert("pitch".into(), Field::optional(closed));
    attrs.dyn_ty = Some(closed);
    let all = put(&mut t, OutputTy::AttrSet(attrs.clone()));
    let text = "{ pitch?: {  }, roll angle: { ... }, _: {  }, ... }";
    assert_eq!(t.display(all).unwrap(), text);
    assert_eq!(t.get(all), Ok(OutputTy::AttrSet(attrs)));
    // Head of kind 6, open, dynamic, three words; `pitch` is name 0.
    let words = [0x6c00_0003, 0x8000_0000, 0x0000_8001, 0];
    assert_eq!(t.words()[2..], words);
}

#[test]
fn shared_params() {
    let mut t = named(&["p", "q"]);
    let (a, int) = (var(&mut t, 0), int(&mut t));
    let bool = primitive(&mut t, PrimitiveTy::Bool);
    let (one, other) = (lambda(&mut t, a, int), lambda(&mut t, a, bool));
    let same = set(&mut t, &[("p", one), ("q", one)]);
    let two = set(&mut t, &[("p", one), ("q", other)]);
    assert_eq!(t.has_shared_tyvar_across_lambda_params(same), Ok(false));
    assert_eq!(t.has_shared_tyvar_across_lambda_params(two), Ok(true));
}

#[test]
fn questions() {
    let mut t = named(&["T"]);
    let (c, b) = (var(&mut t, 2), var(&mut t, 1));
    let f = lambda(&mut t, c, b);
    let g = lambda(&mut t, b, f);
    let n = put(&mut t, OutputTy::Named("T".into(), g));
    let int = int(&mut t);
    let h = lambda(&mut t, b, int);
    assert_eq!(t.free_type_vars(n), Ok(vec![1, 2]));
    assert_eq!(t.free_type_vars(int), Ok(vec![]));
    assert_eq!(t.has_type_vars(n), Ok(true));
    assert_eq!(t.has_type_vars(int), Ok(false));
    assert_eq!(t.needs_var_normalization(n), Ok(true));
    assert_eq!(t.needs_var_normalization(int), Ok(false));
    assert_eq!(t.contains_bare_tyvar(n), Ok(true));
    assert_eq!(t.contains_bare_tyvar(h), Ok(false));
    assert_eq!(t.unwrap_named(n), Ok(g));
    assert_eq!(t.unwrap_named(g), Ok(g));
    assert_eq!(t.count_reachable(n), Ok(5));
    assert_eq!(t.count_reachable(int), Ok(1));
    assert_eq!(t.compare(int, b), Ok(Ordering::Less));
    assert_eq!(t.compare(b, b), Ok(Ordering::Equal));
    assert_eq!(t.compare(c, b), Ok(Ordering::Greater));
    assert_eq!(t.display(g), Ok("b -> c -> b".into()));
    assert_eq!(t.display(n), Ok("T".into()));
}

#[test]
fn variables_are_numbered() {
    let mut t = empty();
    let (h, d) = (var(&mut t, 7), var(&mut t, 3));
    let f = lambda(&mut t, h, d);
    let renumbered = t.normalize_vars(f).unwrap();
    assert_eq!(t.display(renumbered), Ok("a -> b".into()));
    assert_eq!(t.normalize_replacing_unknown(f), Ok(renumbered));
    let alone = t.normalize_vars(h).unwrap();
    assert_eq!(t.display(alone), Ok("a".into()));
    let unknown = t.normalize_replacing_unknown(h).unwrap();
    assert_eq!(t.get(unknown), Ok(OutputTy::TyVar(u32::MAX)));
    assert_eq!(t.display(unknown), Ok("?".into()));
}

#[test]
fn copied_alone() {
    let mut t = named(&["p"]);
    let (int, a) = (int(&mut t), var(&mut t, 0));
    let unused = list(&mut t, int);
    let root = set(&mut t, &[("p", a)]);
    let (copy, copied) = t.compact(root).unwrap();
    let nodes: Vec<OutputTy> = copy.nodes().collect();
    let attrs = AttrSetTy::from_internal([("p", TyRef::from_raw(0))], false);
    assert_eq!(nodes, [OutputTy::TyVar(0), OutputTy::AttrSet(attrs)]);
    assert_eq!(copied.into_raw(), 1);
    assert_eq!(t.structurally_eq(root, &copy, copied), Ok(true));
    assert_eq!(t.structurally_eq(unused, &copy, copied), Ok(false));
    assert_eq!(t.structurally_eq(root, &t, root), Ok(true));

    // A larger table gives `p` another number; equality goes by the text.
    let mut other = named(&["a", "p"]);
    let a = var(&mut other, 0);
    let same = set(&mut other, &[("p", a)]);
    let another = set(&mut other, &[("a", a)]);
    assert_eq!(t.structurally_eq(root, &other, same), Ok(true));
    assert_eq!(t.structurally_eq(root, &other, another), Ok(false));
}

/// One node of each kind: its words, and the node read back.
#[test]
fn words_of_each_kind() {
    let mut t = named(&["p", "q"]);
    let at = TyRef::from_raw;
    let open_set = AttrSetTy::from_internal([("q", at(2))], true);
    let nodes = [
        (OutputTy::Bottom, vec![0]),
        (OutputTy::Top, vec![0x1000_0000]),
        (
            OutputTy::Primitive(PrimitiveTy::Number),
            vec![0x2000_0001, 7],
        ),
        (OutputTy::TyVar(u32::MAX), vec![0x3000_0001, u32::MAX]),
        (OutputTy::List(at(3)), vec![0x4000_0001, 3]),
        (
            OutputTy::Lambda {
                param: at(1),
                body: at(4),
            },
            vec![0x5000_0002, 1, 4],
        ),
        (OutputTy::AttrSet(open_set), vec![0x6800_0001, 0x0000_8002]),
        (OutputTy::Union(vec![at(5), at(5)]), vec![0x7000_0002, 5, 5]),
        (OutputTy::Intersection(vec![at(6)]), vec![0x8000_0001, 6]),
        (
            OutputTy::Named("q".into(), at(0)),
            vec![0x9000_0001, 0x0000_8000],
        ),
        (OutputTy::Neg(at(9)), vec![0xa000_0001, 9]),
    ];
    for (number, (node, words)) in nodes.iter().enumerate() {
        let used = t.words().len();
        assert_eq!(t.intern(node.clone()), Ok(at(number as u32)));
        assert_eq!(t.words()[used..], *words);
        assert_eq!(t.get(at(number as u32)).as_ref(), Ok(node));
        assert_eq!(t.intern(node.clone()), Ok(at(number as u32)));
    }
    let all: Vec<OutputTy> = nodes.iter().map(|(node, _)| node.clone()).collect();
    assert_eq!(t.nodes().collect::<Vec<_>>(), all);
    assert!(TypeArena::from_nodes(t.names().clone(), all) == Ok(t));
}

#[test]
fn primitives_in_print() {
    let mut t = empty();
    for (code, of) in PrimitiveTy::ALL.into_iter().enumerate() {
        let ty = primitive(&mut t, of);
        assert_eq!(t.display(ty), Ok(of.to_string()));
        assert_eq!(t.words()[2 * code + 1], code as u32);
    }
}

#[test]
fn names_stand_bytewise() {
    assert_eq!(compare_names("Z", "a"), Ordering::Less);
    assert_eq!(compare_names("ab", "ab"), Ordering::Equal);
    assert_eq!(compare_names("ab", "a"), Ordering::Greater);
}

#[test]
fn texts_among_names() {
    let names = Names::new(["roll", "pitch", "roll angle"]).unwrap();
    assert_eq!(names.find("pitch"), Ok(0));
    assert_eq!(names.find("roll"), Ok(1));
    assert_eq!(names.find(b"roll angle"), Ok(2));
    assert_eq!(names.find("chainage"), Err(0));
    assert_eq!(names.find("rol"), Err(1));
    assert_eq!(names.find("rolling"), Err(3), "a space comes before i");
    assert_eq!(names.find("roll "), Err(2));
    assert_eq!(names.find("roll angle é"), Err(3));
    assert_eq!(names.find(""), Err(0));
    assert_eq!(Names::default().find("roll"), Err(0));
}

#[test]
fn the_sheet_of_document_01() {
    let mut t = empty();
    let members = [var(&mut t, 0), int(&mut t)];
    let root = union(&mut t, &members);
    let bytes = sheet(&t, root.into_raw());
    let words: [u32; 7] = [0x3000_0001, 0, 0x2000_0001, 2, 0x7000_0002, 0, 1];
    let mut by_hand = vec![0, 0, 0, 3, 0, 2];
    by_hand.extend(words.iter().flat_map(|word| word.to_be_bytes()));
    assert_eq!(bytes, by_hand);
    assert_eq!(t.write_sheet(root), Ok(by_hand));
    assert_eq!(sheet_line(&bytes), Ok("1 2 int".into()));
}

#[test]
fn limits_that_fit() {
    let all = (0..4_096).map(|number| format!("n{number:04}"));
    let all: Vec<String> = all.collect();
    let mut t = TypeArena::new(Names::new(&all).unwrap());
    let a = var(&mut t, 0);
    let last = put(&mut t, OutputTy::Named(all[4_095].clone(), a));
    assert_eq!(t.display(last), Ok("n4095".into()));
    assert_eq!(t.words()[2..], [0x9000_0001, 0x07ff_8000]);
    let members = [a; 64];
    let wide = union(&mut t, &members);
    assert_eq!(t.get(wide), Ok(OutputTy::Union(members.to_vec())));
    let fields = all[..64].iter().map(|name| (name.as_str(), a));
    let attrs = AttrSetTy::from_internal(fields, false);
    t.intern(OutputTy::AttrSet(attrs)).unwrap();
}

#[test]
fn the_last_node() {
    let nodes = (0..4_095).map(OutputTy::TyVar);
    let mut t = TypeArena::from_nodes(Names::default(), nodes).unwrap();
    assert_eq!(t.intern(OutputTy::TyVar(4_095)).unwrap().into_raw(), 4_095);
    let full = t.clone();
    let refused = t.intern(OutputTy::TyVar(4_096));
    assert_eq!(refused.map_err(Refusal::number), Err(7));
    assert_eq!(t.intern(OutputTy::TyVar(9)).unwrap().into_raw(), 9);
    assert!(untouched(&t, &full));
}
