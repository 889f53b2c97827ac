//! Each number that can be caused through the crate, and memory afterwards. 5 comes from a sheet alone: fields are a sorted
//! map.

use coombtray::{
    convert_sheet, import_from_arena, sheet_line, AttrSetTy, Names, OutputTy, PrimitiveTy, Refusal,
    TyRef, TypeArena, Value,
};

use crate::build::*;

fn at(number: u32) -> TyRef {
    TyRef::from_raw(number)
}

fn number<T>(answer: Result<T, Refusal>) -> u32 {
    answer.err().map_or(0, Refusal::number)
}

/// A set of so many fields, with names that no table has.
fn nameless(fields: usize) -> OutputTy {
    let names: Vec<String> = (0..fields).map(|number| format!("~{number}")).collect();
    let fields = names.iter().map(|name| (name.as_str(), at(0)));
    OutputTy::AttrSet(AttrSetTy::from_internal(fields, false))
}

/// Tries to store a node; a refusal must leave the arena as it was.
fn interned(t: &mut TypeArena, node: OutputTy) -> u32 {
    let before = t.clone();
    let refused = number(t.intern(node));
    assert!(refused == 0 || untouched(t, &before));
    refused
}

#[test]
fn three() {
    let mut t = named(&["p"]);
    let a = var(&mut t, 0);
    for list in [OutputTy::Union, OutputTy::Intersection] {
        assert_eq!(interned(&mut t, list(vec![])), 3);
        assert_eq!(interned(&mut t, list(vec![a; 65])), 3);
        assert_eq!(interned(&mut t, list(vec![a; 70_000])), 3);
        assert_eq!(interned(&mut t, list(vec![at(9); 65])), 3, "before 4");
        assert_eq!(interned(&mut t, list(vec![a; 64])), 0);
    }
    assert_eq!(interned(&mut t, nameless(65)), 3, "before 4");
}

/// Every kind of node that has a child, with this one.
fn parents(child: TyRef) -> Vec<OutputTy> {
    let field = AttrSetTy::from_internal([("p", child)], false);
    let mut dynamic = AttrSetTy::new();
    dynamic.dyn_ty = Some(child);
    vec![
        OutputTy::List(child),
        OutputTy::Neg(child),
        OutputTy::Lambda {
            param: at(0),
            body: child,
        },
        OutputTy::Union(vec![at(0), child]),
        OutputTy::Intersection(vec![child]),
        OutputTy::Named("p".into(), child),
        OutputTy::AttrSet(field),
        OutputTy::AttrSet(dynamic),
    ]
}

#[test]
fn four_by_children() {
    let mut t = named(&["p"]);
    assert_eq!(interned(&mut t, OutputTy::List(at(0))), 4);
    var(&mut t, 0);
    let children = [1, 4_095, 4_096, 1 << 31, u32::MAX].map(at);
    for node in children.into_iter().flat_map(parents) {
        assert_eq!(interned(&mut t, node), 4);
    }
    for node in parents(at(0)) {
        assert_eq!(interned(&mut t, node), 0);
    }
}

#[test]
fn four_by_names() {
    let mut t = named(&["p"]);
    let a = var(&mut t, 0);
    for name in ["", "P", "pp", "é"] {
        assert_eq!(interned(&mut t, OutputTy::Named(name.into(), a)), 4);
    }
    assert_eq!(interned(&mut t, nameless(64)), 4);
    // With all 4,096 numbers taken a name that isn't there is refused too.
    let more = (0..4_095).map(|number| format!("q{number}"));
    t.add_names(more).unwrap();
    assert_eq!(interned(&mut t, nameless(1)), 4);
}

#[test]
fn six() {
    let mut t = empty();
    for there in [0, 1] {
        let before = t.clone();
        for root in [there, 4_096, u32::MAX].map(at) {
            assert_eq!(number(t.get(root)), 6);
            assert_eq!(number(t.simplify(root)), 6);
            assert_eq!(number(t.normalize_vars(root)), 6);
            assert_eq!(number(t.normalize_replacing_unknown(root)), 6);
            assert_eq!(number(t.normalize_set_ops(root)), 6);
            assert_eq!(number(t.compact(root)), 6);
            assert_eq!(number(import_from_arena(&mut t, &before, root)), 6);
            assert_eq!(number(t.count_reachable(root)), 6);
            assert_eq!(number(t.unwrap_named(root)), 6);
            assert_eq!(number(t.has_type_vars(root)), 6);
            assert_eq!(number(t.needs_var_normalization(root)), 6);
            assert_eq!(number(t.contains_bare_tyvar(root)), 6);
            assert_eq!(number(t.has_shared_tyvar_across_lambda_params(root)), 6);
            assert_eq!(number(t.free_type_vars(root)), 6);
            assert_eq!(number(t.compare(at(0), root)), 6);
            assert_eq!(number(t.compare(root, at(0))), 6);
            assert_eq!(number(t.structurally_eq(root, &t, root)), 6);
            assert_eq!(number(t.display(root)), 6);
            assert_eq!(number(t.display_nix(root)), 6);
            assert_eq!(number(t.fits(root, &Value::Null)), 6);
        }
        assert!(untouched(&t, &before));
        var(&mut t, 0);
    }
}

/// U[[U[a, int]], null], which `simplify` gives two new nodes of five words.
fn needy(words: usize, nodes: usize) -> (TypeArena, TyRef) {
    let mut t = TypeArena::with_capacity(Names::default(), words, nodes).unwrap();
    let members = [var(&mut t, 0), int(&mut t)];
    let inner = union(&mut t, &members);
    let members = [list(&mut t, inner), primitive(&mut t, PrimitiveTy::Null)];
    let root = union(&mut t, &members);
    (t, root)
}

#[test]
fn seven() {
    for (words, nodes, refused) in [(19, 8, 0), (18, 8, 7), (19, 7, 7), (14, 6, 7)] {
        let (mut t, root) = needy(words, nodes);
        let before = t.clone();
        assert_eq!(number(t.simplify(root)), refused);
        assert!(refused == 0 || untouched(&t, &before));
    }
    // What the others would add: b, [a | int] sorted, and the copy of a variable's number.
    let (mut t, root) = needy(14, 6);
    assert_eq!(interned(&mut t, OutputTy::TyVar(1)), 7);
    assert_eq!(interned(&mut t, OutputTy::TyVar(0)), 0, "it is there");
    let before = t.clone();
    assert_eq!(number(t.normalize_set_ops(root)), 7);
    assert!(untouched(&t, &before));
    let mut t = TypeArena::with_capacity(Names::default(), 4, 2).unwrap();
    let c = var(&mut t, 2);
    let root = list(&mut t, c);
    let before = t.clone();
    assert_eq!(number(t.normalize_vars(root)), 7);
    assert_eq!(number(t.normalize_replacing_unknown(c)), 7);
    assert!(untouched(&t, &before));
    let mut none = TypeArena::with_capacity(Names::default(), 0, 0).unwrap();
    assert_eq!(interned(&mut none, OutputTy::Top), 7);
    let empty = none.clone();
    assert_eq!(number(import_from_arena(&mut none, &t, root)), 7);
    assert!(untouched(&none, &empty));
    let nodes = (0..4_097).map(OutputTy::TyVar);
    assert_eq!(number(TypeArena::from_nodes(Names::default(), nodes)), 7);
}

#[test]
fn the_target_of_compact() {
    let mut t = named(&["p"]);
    let a = var(&mut t, 0);
    let root = set(&mut t, &[("p", a)]);
    let names = || Names::new(["other"]).unwrap();
    let mut target = TypeArena::with_capacity(names(), 3, 2).unwrap();
    int(&mut target);
    let before = target.clone();
    assert_eq!(number(t.compact_into(at(2), &mut target)), 6);
    assert!(untouched(&target, &before), "as lent");
    assert_eq!(number(t.compact_into(root, &mut target)), 7);
    let cleared = TypeArena::with_capacity(names(), 3, 2).unwrap();
    assert!(untouched(&target, &cleared), "zero and empty");
}

#[test]
fn a_target_with_other_names() {
    let mut t = named(&["p"]);
    let a = var(&mut t, 0);
    let root = set(&mut t, &[("p", a)]);
    let mut target = named(&["other"]);
    let int = int(&mut target);
    put(&mut target, OutputTy::Named("other".into(), int));
    let copied = t.compact_into(root, &mut target).unwrap();
    assert!(target == t, "all nodes were reachable");
    assert_eq!(copied, root);
}

#[test]
fn eight() {
    for (different, refused) in [(64, 0), (65, 8)] {
        let mut t = empty();
        let vars: Vec<TyRef> = (0..different).map(|index| var(&mut t, index)).collect();
        let members = [union(&mut t, &vars[..40]), union(&mut t, &vars[40..])];
        let lists = union(&mut t, &members);
        // Each variable is the param of a lambda too, so that `simplify` drops none.
        let root = vars
            .iter()
            .fold(lists, |body, &of| lambda(&mut t, of, body));
        let before = t.clone();
        assert_eq!(number(t.clone().simplify(root)), refused);
        assert_eq!(number(t.normalize_set_ops(root)), refused);
        assert!(refused == 0 || untouched(&t, &before));
    }
}

type Print = for<'a> fn(&TypeArena, TyRef, &'a mut [u8]) -> Result<&'a str, Refusal>;

#[test]
fn nine() {
    let mut t = named(&["n".repeat(64).as_str()]);
    let int = int(&mut t);
    let text = t.display(list(&mut t.clone(), int)).err();
    assert_eq!(
        text.map(Refusal::number),
        Some(6),
        "a node of another arena"
    );
    let inner = list(&mut t, int);
    let prints: [Print; 2] = [TypeArena::display_into, TypeArena::display_nix_into];
    for print in prints {
        let mut lent = [7; 8];
        assert_eq!(print(&t, inner, &mut lent), Ok("[int]"));
        assert_eq!(lent, *b"[int]\x07\x07\x07", "bytes past the text stay");
        assert_eq!(number(print(&t, at(9), &mut lent)), 6);
        assert_eq!(lent, *b"[int]\x07\x07\x07", "as lent");
        assert_eq!(number(print(&t, inner, &mut lent[..4])), 9);
        assert_eq!(lent, *b"\0\0\0\0]\x07\x07\x07", "zero throughout");
        assert_eq!(print(&t, inner, &mut lent[..5]), Ok("[int]"));
        assert_eq!(number(print(&t, inner, &mut [])), 9);
    }
}

#[test]
fn the_longest_name() {
    let name = "\"".repeat(64);
    let mut t = named(&[name.as_str()]);
    let int = int(&mut t);
    let ty = put(&mut t, OutputTy::Named(name.clone(), int));
    let text = format!("\"{}\"", "\\\"".repeat(64));
    assert_eq!(text.len(), 130);
    let mut lent = [7; 132];
    assert_eq!(t.display_into(ty, &mut lent[..64]), Ok(name.as_str()));
    assert_eq!(number(t.display_nix_into(ty, &mut lent[..129])), 9);
    assert_eq!(lent[..129], [0; 129]);
    assert_eq!(lent[129..], [7; 3]);
    let printed = t.display_nix_into(ty, &mut lent[..130]);
    assert_eq!(printed, Ok(text.as_str()));
    assert_eq!(lent[130..], [7; 2], "bytes past the text stay");
}

/// The length of a text, or the number of its refusal.
fn length(text: Result<String, Refusal>) -> Result<usize, u32> {
    text.map(|text| text.len()).map_err(Refusal::number)
}

#[test]
fn the_longest_text() {
    // Twelve lambdas, each of the one before it twice, over a name: 4,096 of it with five bytes each, less six, which the
    // brackets of three lists are. A name that begins with a digit has two bytes more by the manual.
    for (bytes, bare, nix) in [
        (9, Ok(57_344), Ok(65_536)),
        (10, Ok(61_440), Err(9)),
        (11, Ok(65_536), Err(9)),
        (12, Err(9), Err(9)),
    ] {
        let name = "9".repeat(bytes);
        let mut t = named(&[name.as_str()]);
        let int = int(&mut t);
        let mut ty = put(&mut t, OutputTy::Named(name, int));
        for _ in 0..12 {
            ty = lambda(&mut t, ty, ty);
        }
        for _ in 0..3 {
            ty = list(&mut t, ty);
        }
        assert_eq!(length(t.display(ty)), bare);
        assert_eq!(length(t.display_nix(ty)), nix);
        let line = sheet_line(&t.write_sheet(ty).unwrap());
        assert_eq!(length(line), nix.map(|length| length + "16 2 ".len()));
        let longer = put(&mut t, OutputTy::Neg(ty));
        let one_more = |length| match length {
            65_536 => Err(9),
            _ => Ok(length + 1),
        };
        assert_eq!(length(t.display(longer)), bare.and_then(one_more));
        assert_eq!(length(t.display_nix(longer)), nix.and_then(one_more));
    }
}

#[test]
fn one_and_two() {
    assert_eq!(number(Names::new([""])), 1);
    let sized = |words, nodes| TypeArena::with_capacity(Names::default(), words, nodes);
    assert_eq!(number(sized(16_384, 4_096)), 0);
    assert_eq!(number(sized(16_385, 4_096)), 2);
    assert_eq!(number(sized(16_384, 4_097)), 2);
    assert_eq!(number(sized(usize::MAX, usize::MAX)), 2);
    let of = |nodes: &[OutputTy]| TypeArena::from_nodes(Names::default(), nodes.to_vec());
    assert_eq!(number(of(&[])), 0);
    assert_eq!(number(of(&[OutputTy::Top, OutputTy::Top])), 2, "it repeats");
    assert_eq!(number(of(&[OutputTy::List(at(0))])), 2, "its own child");
    assert_eq!(number(of(&[OutputTy::List(at(4_096))])), 4);
    assert_eq!(number(of(&[OutputTy::Union(vec![])])), 3);
}

#[test]
fn of_sheets() {
    let mut t = named(&["p"]);
    let a = var(&mut t, 0);
    let root = set(&mut t, &[("p", a)]);
    let good = sheet(&t, root.into_raw());
    // Counts in bytes 0 to 5, the table in 6 and 7, a at 8 to 15, the set's head at 16, its field word at 20.
    assert_eq!(sheet_line(&good), Ok("1 2 { p: a }".into()));
    let with = |changes: &[(usize, u8)]| {
        let mut sheet = good.clone();
        for &(place, byte) in changes {
            sheet[place] = byte;
        }
        number(sheet_line(&sheet))
    };
    assert_eq!(with(&[(6, 0)]), 1);
    assert_eq!(with(&[(16, 0xb0)]), 3);
    assert_eq!(with(&[(23, 1)]), 4);
    assert_eq!(with(&[(5, 2)]), 6);
    assert_eq!(with(&[(3, 3)]), 10);
    assert_eq!(number(sheet_line(&[])), 10);
    assert_eq!(number(sheet_line(&[&good[..], &[0]].concat())), 10);
    let nodes = (0..4_096).map(OutputTy::TyVar);
    let full = TypeArena::from_nodes(Names::default(), nodes).unwrap();
    let mut more = [sheet(&full, 0), vec![0x10, 0, 0, 0]].concat();
    more[2..4].copy_from_slice(&[0x10, 1]);
    assert_eq!(number(sheet_line(&more)), 7);
}

#[test]
fn sheets_that_exceed() {
    let mut t = named(&["p"]);
    let a = var(&mut t, 0);
    let root = set(&mut t, &[("p", a)]);
    let written = t.write_sheet(root).unwrap();
    assert_eq!(written, sheet(&t, root.into_raw()));
    let mut lent = [7; 26];
    assert_eq!(number(t.write_sheet_into(at(9), &mut lent)), 6);
    assert_eq!(number(t.write_sheet_into(root, &mut lent[..23])), 9);
    assert_eq!(number(t.write_sheet_into(root, &mut [])), 9);
    assert_eq!(lent, [7; 26], "as lent");
    assert_eq!(t.write_sheet_into(root, &mut lent[..24]), Ok(&written[..]));
    assert_eq!(lent[24..], [7; 2]);
    lent.fill(8);
    assert_eq!(t.write_sheet_into(root, &mut lent), Ok(&written[..]));
    assert_eq!(lent[24..], [8; 2], "bytes past the sheet stay");
}

#[test]
fn the_longest_sheet() {
    // 64 variables, 250 unions of 64 members and one of three or four: 16,382 words, and 16,383.
    for (last, refused) in [(3, 0), (4, 9)] {
        let vars = (0..64).map(OutputTy::TyVar);
        let wide = (0..250).map(|k| [vec![at(k % 64), at(k / 64)], vec![at(0); 62]].concat());
        let lists = wide.chain([vec![at(0); last]]).map(OutputTy::Union);
        let t = TypeArena::from_nodes(Names::default(), vars.chain(lists)).unwrap();
        assert_eq!(t.words().len(), 16_379 + last);
        let written = t.write_sheet(at(314));
        let length = written.as_ref().map_or(0, Vec::len);
        assert_eq!(number(written), refused);
        assert!(refused != 0 || length == 6 + 4 * 16_382);
    }
}

#[test]
fn sheets_of_large_types() {
    let mut t = empty();
    let vars: Vec<TyRef> = (0..65).map(|index| var(&mut t, index)).collect();
    let members = [union(&mut t, &vars[..40]), union(&mut t, &vars[40..])];
    let lists = union(&mut t, &members);
    let root = vars
        .iter()
        .fold(lists, |body, &of| lambda(&mut t, of, body));
    assert_eq!(number(sheet_line(&sheet(&t, root.into_raw()))), 8);
    // The same variable on both sides keeps both signs, and each step doubles the text.
    let mut t = empty();
    let mut ty = var(&mut t, 0);
    for _ in 0..16 {
        ty = lambda(&mut t, ty, ty);
    }
    assert_eq!(number(sheet_line(&sheet(&t, ty.into_raw()))), 9);
}

#[test]
fn twelve() {
    let mut t = named(&["p", "q"]);
    let a = var(&mut t, 0);
    let inner = put(&mut t, OutputTy::Named("q".into(), a));
    let root = list(&mut t, inner);
    let mut target = named(&["p"]);
    var(&mut target, 0);
    let before = target.clone();
    assert_eq!(number(import_from_arena(&mut target, &t, root)), 12);
    assert!(untouched(&target, &before));
    assert_eq!(import_from_arena(&mut target, &t, a), Ok(at(0)));
}

#[test]
fn thirteen_and_fourteen() {
    let mut t = named(&["p"]);
    let [a, int] = [var(&mut t, 0), int(&mut t)];
    let ty = list(&mut t, a);
    let before = t.clone();
    let lacking = Value::Set([("q".to_string(), Value::Null)].into());
    let many = Value::List(vec![Value::Null; 1_024]);
    for fix in [lacking, many] {
        assert_eq!(number(t.fits(int, &fix)), 13);
        assert_eq!(number(t.fits(ty, &fix)), 13, "before 14");
        assert_eq!(number(t.fits(at(3), &fix)), 6, "before 13");
    }
    assert_eq!(number(t.fits(ty, &Value::Null)), 14);
    assert_eq!(number(t.fits(a, &Value::Null)), 14);
    assert_eq!(t.fits(int, &Value::Null), Ok(false));
    assert!(untouched(&t, &before));
}

/// A refusal by each number, 1 to 14.
pub fn each() -> [Refusal; 14] {
    let mut t = named(&["p", "q"]);
    let vars: Vec<TyRef> = (0..65).map(|index| var(&mut t, index)).collect();
    let members = [union(&mut t, &vars[..64]), vars[64]];
    let wide = union(&mut t, &members);
    let root = set(&mut t, &[("p", vars[0]), ("q", vars[0])]);
    // The last two words of the sheet are its fields, here in the wrong order.
    let mut falling = sheet(&t, root.into_raw());
    let fields = falling.len() - 8;
    falling[fields..].rotate_left(4);
    [
        Names::new([""]).unwrap_err(),
        TypeArena::with_capacity(Names::default(), 0, 4_097).unwrap_err(),
        t.intern(OutputTy::Union(vec![])).unwrap_err(),
        t.intern(OutputTy::List(at(4_096))).unwrap_err(),
        sheet_line(&falling).unwrap_err(),
        t.display(at(4_096)).unwrap_err(),
        TypeArena::with_capacity(Names::default(), 0, 0)
            .and_then(|mut none| none.intern(OutputTy::Top))
            .unwrap_err(),
        t.normalize_set_ops(wide).unwrap_err(),
        t.display_into(root, &mut []).unwrap_err(),
        sheet_line(&[]).unwrap_err(),
        convert_sheet(&mut []).unwrap_err(),
        import_from_arena(&mut empty(), &t, root).unwrap_err(),
        t.fits(root, &Value::List(vec![Value::Null; 1_024]))
            .unwrap_err(),
        t.fits(root, &Value::Null).unwrap_err(),
    ]
}

#[test]
fn numbers() {
    assert!(each().map(Refusal::number).into_iter().eq(1..=14));
    let text = "refused 1, caused by the host that lends memory: the name table breaks a rule";
    assert_eq!(each()[0].to_string(), text);
}
