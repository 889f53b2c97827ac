//! Random types with fixed seeds, every operation through both APIs, arenas node for node.

use std::collections::BTreeMap;
use std::fmt::Debug;
use std::sync::Arc;

use coombtray::{
    convert_sheet, sheet_line, tyvar_name, AttrSetTy, Field, OutputTy, TyRef, TypeArena,
};
use host::both::{nodes, to_ours, to_theirs, Both, PRIMITIVES};
use host::random::{type_of, Random, NAMES};
use lang_ty::simplify::simplify;
use lang_ty::OwnedTy;
use reference::layout::{NEW, OLD};
use reference::rust::Rust;
use reference::sheet;
use reference::TEXT;

const TYPES: u64 = 3_000;
const SHEETS: u64 = 10_000;

/// How often each answer was given, so that no comparison is of one answer alone.
#[derive(Default)]
struct Met(BTreeMap<String, u32>);

impl Met {
    fn note(&mut self, question: &str, answer: impl Debug) {
        *self.0.entry(format!("{question} {answer:?}")).or_default() += 1;
    }

    fn asked<T: PartialEq + Debug>(&mut self, question: &str, ours: T, theirs: T) {
        assert_eq!(ours, theirs, "{question}");
        self.note(question, ours);
    }

    /// Each of these must have been met often.
    fn often(&self, question: &str, answers: &[&str]) {
        for answer in answers {
            let key = format!("{question} {answer}");
            assert!(self.0.get(&key) > Some(&20), "{key}: {:?}", self.0);
        }
    }
}

fn questions(both: &Both, root: TyRef, met: &mut Met) {
    let (ours, theirs, ty) = (&both.ours, &both.theirs, to_theirs(root));
    let vars = ours.free_type_vars(root).unwrap();
    assert_eq!(vars, theirs.free_type_vars(ty));
    let unwrapped = ours.unwrap_named(root).unwrap();
    assert_eq!(unwrapped, to_ours(theirs.unwrap_named(ty)));
    met.note("unwrapped", unwrapped != root);
    let answer = ours.has_type_vars(root).unwrap();
    met.asked("vars", answer, theirs.has_type_vars(ty));
    let answer = ours.needs_var_normalization(root).unwrap();
    met.asked("needs", answer, theirs.needs_var_normalization(ty));
    let answer = ours.contains_bare_tyvar(root).unwrap();
    met.asked("bare", answer, theirs.contains_bare_tyvar(ty));
    let answer = ours.has_shared_tyvar_across_lambda_params(root).unwrap();
    met.asked(
        "shared",
        answer,
        theirs.has_shared_tyvar_across_lambda_params(ty),
    );
}

/// Texts, the order of nodes and equality, of nodes taken at random.
fn pairs(both: &Both, random: &mut Random, met: &mut Met) {
    let (copy, mut named) = (Arc::new(both.theirs.clone()), both.ours.clone());
    named.add_names(["a", "q", "z"]).unwrap();
    for _ in 0..6 {
        let [left, right] = [(); 2].map(|()| random.below(both.ours.len()) as u32);
        let [left, right] = [left, right].map(TyRef::from_raw);
        both.printed(left);
        let order = both.ours.compare(left, right).unwrap();
        let theirs = both.theirs[to_theirs(left)].cmp(&both.theirs[to_theirs(right)]);
        met.asked("order", order, theirs);
        // Their arenas are two, so that they don't answer by the number.
        let one = OwnedTy::new(Arc::new(both.theirs.clone()), to_theirs(left));
        let other = OwnedTy::new(copy.clone(), to_theirs(right));
        let equal = both.ours.structurally_eq(left, &named, right).unwrap();
        met.asked("equal", equal, one.structurally_eq(&other));
    }
}

fn copied(both: &Both, root: TyRef) -> Both {
    let (ours, copy) = both.ours.compact(root).unwrap();
    let (theirs, other) = both.theirs.compact(to_theirs(root));
    assert_eq!(copy, to_ours(other));
    assert!(ours.nodes().eq(nodes(&theirs)));
    let count = both.ours.count_reachable(root).unwrap();
    assert_eq!(count as usize, theirs.len());
    Both { ours, theirs }
}

fn simplified(both: &mut Both, root: TyRef, met: &mut Met) -> TyRef {
    // The Rust doesn't say how many passes it made: the number is noted and not compared.
    let passes = both.ours.clone().simplify(root).unwrap().passes;
    met.note("passes", passes);
    let ours = |t: &mut TypeArena, ty| t.simplify(ty).map(|done| done.root);
    let after = both.change(root, ours, simplify);
    met.note("simplified", after != root);
    after
}

/// Each call on an arena of its own, then one after another on one arena.
fn changes(both: &Both, root: TyRef, met: &mut Met) {
    let vars = |b: &mut Both, ty| {
        let theirs = lang_ty::TypeArena::normalize_vars;
        b.change(ty, TypeArena::normalize_vars, theirs)
    };
    let unknown = |b: &mut Both, ty| {
        let theirs = lang_ty::TypeArena::normalize_replacing_unknown;
        b.change(ty, TypeArena::normalize_replacing_unknown, theirs)
    };
    let set_ops = |b: &mut Both, ty| {
        let theirs = lang_ty::TypeArena::normalize_set_ops;
        b.change(ty, TypeArena::normalize_set_ops, theirs)
    };
    met.note("renumbered", vars(&mut both.clone(), root) != root);
    unknown(&mut both.clone(), root);
    met.note("sorted", set_ops(&mut both.clone(), root) != root);
    simplified(&mut both.clone(), root, met);
    let mut all = both.clone();
    let ty = set_ops(&mut all, root);
    let ty = simplified(&mut all, ty, met);
    let ty = unknown(&mut all, ty);
    copied(&all, ty);
}

fn compare(seed: u64, met: &mut Met) {
    let (both, root) = type_of(seed);
    let mut random = Random::new(!seed);
    both.alike(root);
    questions(&both, root, met);
    pairs(&both, &mut random, met);
    copied(&both, root);
    changes(&both, root, met);
    let index = random.next() as u32 >> random.below(32);
    assert_eq!(tyvar_name(index), lang_ty::tyvar_name(index));
}

#[test]
fn random_types() {
    let mut met = Met::default();
    // On one deep stack, so that the Rust doesn't make a thread for each call.
    stacker::maybe_grow(0, 0, || {
        for seed in 0..TYPES {
            compare(seed, &mut met);
        }
    });
    for question in ["vars", "needs", "bare", "shared", "equal", "unwrapped"] {
        met.often(question, &["true", "false"]);
    }
    for question in ["renumbered", "sorted", "simplified"] {
        met.often(question, &["true", "false"]);
    }
    met.often("order", &["Less", "Equal", "Greater"]);
    met.often("passes", &["2", "3"]);
}

/// Written as a sheet and read again, the type has the line that the Rust gives it, with the names as the manual writes them.
/// The passes are ours.
fn written(seed: u64, met: &mut Met) {
    let (mut both, root) = type_of(seed);
    let sheet = both.ours.write_sheet(root).unwrap();
    let passes = both.ours.simplify(root).unwrap().passes;
    let after = simplify(&mut both.theirs, to_theirs(root)).into_raw();
    let text = Rust::over(both.theirs, &NAMES).display_nix(after, TEXT);
    let read = sheet_line(&sheet).map_err(|refusal| refusal.number() as u8);
    let line = text.map(|text| format!("{after} {passes} {text}"));
    met.note("quotes", line.as_ref().is_ok_and(|line| line.contains('"')));
    assert_eq!(read, line);
    met.note("over 256 bytes", sheet.len() > 256);
    met.note("converted", converted(&sheet));
}

/// The old sheet of the same type, which the reference writes, becomes this one. Gives whether it was another.
fn converted(new: &[u8]) -> bool {
    let read = sheet::read(NEW, new).unwrap();
    let mut bytes = sheet::write(OLD, &read, TEXT).unwrap();
    let differs = bytes != new;
    convert_sheet(&mut bytes).unwrap();
    assert_eq!(bytes, new);
    differs
}

#[test]
fn sheets() {
    let mut met = Met::default();
    stacker::maybe_grow(0, 0, || {
        for seed in 0..SHEETS {
            written(seed, &mut met);
        }
    });
    for what in ["over 256 bytes", "quotes", "converted"] {
        met.often(what, &["true", "false"]);
    }
}

/// A set with up to 64 of these names.
fn set_of(random: &mut Random, names: &[String], ty: TyRef) -> OutputTy {
    let mut attrs = AttrSetTy::new();
    for _ in 0..64 {
        let optional = random.half();
        let name = names[random.below(names.len())].clone();
        attrs.fields.insert(name, Field { ty, optional });
    }
    OutputTy::AttrSet(attrs)
}

/// Sets over as many names as a table holds, in as many bytes, and the last of them.
#[test]
fn all_names() {
    let names: Vec<String> = (0..4_096).map(|at| format!("{at:015}")).collect();
    let texts: Vec<&str> = names.iter().map(String::as_str).collect();
    let (mut both, mut random) = (Both::new(&texts), Random::new(1));
    let leaf = both.intern(OutputTy::TyVar(0));
    let last = both.intern(OutputTy::Named(names[4_095].clone(), leaf));
    for _ in 0..30 {
        let ty = both.intern(set_of(&mut random, &names, last));
        both.alike(ty);
        copied(&both, ty);
    }
}

#[test]
fn primitives() {
    for (ours, theirs) in PRIMITIVES {
        assert_eq!(ours.to_string(), theirs.to_string());
        assert_eq!(ours.is_number(), theirs.is_number());
        assert_eq!(ours.is_float(), theirs.is_float());
        assert_eq!(ours.is_addable(), theirs.is_addable());
        for (other, their_other) in PRIMITIVES {
            let subtype = theirs.is_subtype_of(&their_other);
            assert_eq!(ours.is_subtype_of(&other), subtype);
            assert_eq!(ours.cmp(&other), theirs.cmp(&their_other));
        }
    }
}
