//! What compare/drop-in/bench measures: a cycle that builds a type node by node, simplifies and prints it; and the questions about a
//! type that is there. The types come as sheets on standard input, as compare/bench writes them. The nodes that a cycle stores are made
//! before it begins.

use std::fmt::{Debug, Write as _};
use std::io::{self, Read, Write};
use std::time::Instant;

use lang_ty::simplify::simplify;
use lang_ty::{AttrSetTy, OutputTy, TyRef, TypeArena};
use smol_str::SmolStr;

use crate::primitives::PRIMITIVES;

/// The bytes that are left to read.
struct Bytes<'a>(&'a [u8]);

impl<'a> Bytes<'a> {
    fn take(&mut self, count: usize) -> &'a [u8] {
        let (taken, rest) = self.0.split_at(count);
        self.0 = rest;
        taken
    }

    /// So many bytes, the most significant first.
    fn integer(&mut self, count: usize) -> u32 {
        let bytes = self.take(count).iter();
        bytes.fold(0, |sum, byte| sum << 8 | u32::from(*byte))
    }
}

fn child(word: u32) -> TyRef {
    TyRef::from_raw((word & 0xfff).into())
}

/// The name in a field word.
fn name(word: u32, names: &[SmolStr]) -> SmolStr {
    names[(word >> 15 & 0xffff) as usize].clone()
}

fn set(head: u32, body: &[u32], names: &[SmolStr]) -> AttrSetTy<TyRef> {
    let dynamic = head >> 26 & 1;
    let (fields, last) = body.split_at(body.len() - dynamic as usize);
    let optional = fields.iter().filter(|word| **word >> 31 == 1);
    AttrSetTy {
        fields: fields
            .iter()
            .map(|word| (name(*word, names), child(*word)))
            .collect(),
        dyn_ty: last.first().map(|word| child(*word)),
        open: head >> 27 & 1 == 1,
        optional_fields: optional.map(|word| name(*word, names)).collect(),
    }
}

fn node(head: u32, body: &[u32], names: &[SmolStr]) -> OutputTy {
    let members = || body.iter().map(|word| child(*word)).collect();
    match head >> 28 {
        0 => OutputTy::Bottom,
        1 => OutputTy::Top,
        2 => OutputTy::Primitive(PRIMITIVES[body[0] as usize]),
        3 => OutputTy::TyVar(body[0]),
        4 => OutputTy::List(child(body[0])),
        5 => OutputTy::Lambda {
            param: child(body[0]),
            body: child(body[1]),
        },
        6 => OutputTy::AttrSet(set(head, body, names)),
        7 => OutputTy::Union(members()),
        8 => OutputTy::Intersection(members()),
        9 => OutputTy::Named(name(body[0], names), child(body[0])),
        _ => OutputTy::Neg(child(body[0])),
    }
}

/// The nodes of a sheet in their order, and the root.
fn sheet(mut bytes: Bytes<'_>) -> (Vec<OutputTy>, TyRef) {
    let [names, nodes, root] = [(); 3].map(|()| bytes.integer(2));
    let mut name = || {
        let length = bytes.integer(1) as usize;
        let text = std::str::from_utf8(bytes.take(length));
        SmolStr::new(text.expect("a name in ASCII"))
    };
    let names: Vec<_> = (0..names).map(|_| name()).collect();
    let mut next = || {
        let head = bytes.integer(4);
        let body: Vec<_> = (0..head & 0xffff).map(|_| bytes.integer(4)).collect();
        node(head, &body, &names)
    };
    ((0..nodes).map(|_| next()).collect(), child(root))
}

fn sheets(cases: &[u8]) -> Vec<(Vec<OutputTy>, TyRef)> {
    let mut bytes = Bytes(cases);
    let mut found = Vec::new();
    while !bytes.0.is_empty() {
        assert_eq!(bytes.integer(1), 8, "a case that is a sheet");
        let length = bytes.integer(4) as usize;
        found.push(sheet(Bytes(bytes.take(length))));
    }
    found
}

/// A new arena, the nodes, `simplify`, the text; the arena is dropped too.
#[inline(never)]
fn measured_cycle((nodes, root): (Vec<OutputTy>, TyRef)) -> (TyRef, String) {
    let mut arena = TypeArena::new();
    for node in nodes {
        arena.intern(node);
    }
    let root = simplify(&mut arena, root);
    let mut text = String::new();
    write!(text, "{}", arena.display(root)).expect("a string grows");
    (root, text)
}

/// The questions that the library answers, of a type that is there.
#[inline(never)]
fn measured_questions((arena, root): &(TypeArena, TyRef)) -> ([bool; 4], Vec<u32>, TyRef) {
    let answers = [
        arena.has_type_vars(*root),
        arena.needs_var_normalization(*root),
        arena.contains_bare_tyvar(*root),
        arena.has_shared_tyvar_across_lambda_params(*root),
    ];
    (
        answers,
        arena.free_type_vars(*root),
        arena.unwrap_named(*root),
    )
}

/// Does this work on each of the things, so many rounds over. On standard output the results of one round, on standard error the
/// nanoseconds of a piece of work in the median round.
fn measure<T: Clone, R: Debug>(rounds: usize, things: &[T], work: fn(T) -> R) -> io::Result<()> {
    let mut times = Vec::new();
    for turn in 0..rounds {
        let things = things.to_vec();
        let count = things.len() as u128;
        let start = Instant::now();
        let results: Vec<_> = things.into_iter().map(work).collect();
        times.push(start.elapsed().as_nanos() / count);
        for result in results.iter().filter(|_| turn == 0) {
            writeln!(io::stdout(), "{result:?}")?;
        }
    }
    times.sort_unstable();
    writeln!(io::stderr(), "{}", times.get(rounds / 2).unwrap_or(&0))
}

fn built((nodes, root): &(Vec<OutputTy>, TyRef)) -> (TypeArena, TyRef) {
    let mut arena = TypeArena::new();
    for node in nodes {
        arena.intern(node.clone());
    }
    (arena, *root)
}

pub fn run(what: &str, rounds: usize) -> io::Result<()> {
    let mut cases = Vec::new();
    io::stdin().read_to_end(&mut cases)?;
    let types = sheets(&cases);
    if what == "cycle" {
        return measure(rounds, &types, measured_cycle);
    }
    let arenas: Vec<_> = types.iter().map(built).collect();
    let arenas: Vec<_> = arenas.iter().collect();
    measure(rounds, &arenas, measured_questions)
}
