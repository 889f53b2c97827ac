//! How much stack each operation needs on the deepest types: the least that it ran in, found by halving, on threads of
//! child processes. A run that needs more ends its process.
//!
//!     cargo run --release --example stack

use std::env;
use std::hint::black_box;
use std::mem::forget;
use std::process::{Command, Stdio};
use std::thread;

use coombtray::{
    convert_sheet, ffi, import_from_arena, sheet_line, AttrSetTy, Field, Names, OutputTy,
    PrimitiveTy, TyRef, TypeArena, Value,
};

/// Six nodes are left free, so that a call can rebuild some nodes at the bottom before there is no more room.
const NODES: usize = 4_090;

type Step = fn(TyRef) -> OutputTy;
/// Whether it was answered.
type Operation = fn(&mut TypeArena, TyRef) -> bool;

/// It stands in quotes as the manual writes it, and 4,090 of them fit a text.
const NAME: &str = "p q";

fn first() -> TyRef {
    TyRef::from_raw(0)
}

fn set(field: Option<TyRef>, dyn_ty: Option<TyRef>) -> OutputTy {
    let fields = field.map(|ty| (NAME.to_string(), Field::required(ty)));
    OutputTy::AttrSet(AttrSetTy {
        fields: fields.into_iter().collect(),
        dyn_ty,
        open: false,
    })
}

fn lambda(param: TyRef, body: TyRef) -> OutputTy {
    OutputTy::Lambda { param, body }
}

fn in_turn(ty: TyRef) -> OutputTy {
    let members = vec![ty, TyRef::from_raw(1)];
    match ty.into_raw() % 2 {
        0 => OutputTy::Union(members),
        _ => OutputTy::Intersection(members),
    }
}

const CHAINS: [(&str, Step); 10] = [
    ("lists", OutputTy::List),
    ("lambdas by param", |ty| lambda(ty, first())),
    ("lambdas by body", |ty| lambda(first(), ty)),
    ("sets by field", |ty| set(Some(ty), None)),
    ("sets by dynamic", |ty| set(None, Some(ty))),
    ("unions", |ty| OutputTy::Union(vec![ty, first()])),
    ("intersections", |ty| {
        OutputTy::Intersection(vec![ty, first()])
    }),
    ("both in turn", in_turn),
    ("names", |ty| OutputTy::Named(NAME.into(), ty)),
    ("negs", OutputTy::Neg),
];

/// Holds the deepest fixes, of lists and of sets, against the type with any in place of its variable.
fn fits(arena: &mut TypeArena, root: TyRef) -> bool {
    let nodes = arena.nodes().map(|node| match node {
        OutputTy::TyVar(_) => OutputTy::Top,
        node => node,
    });
    let arena = TypeArena::from_nodes(arena.names().clone(), nodes).expect("a sound arena");
    let around: [fn(Value) -> Value; 2] = [
        |inner| Value::List(vec![inner]),
        |inner| Value::Set([(NAME.to_string(), inner)].into()),
    ];
    around.iter().all(|around| {
        let fix = (1..ffi::VALUES).fold(Value::Int(0), |inner, _| around(inner));
        let answered = arena.fits(root, &fix).is_ok();
        // To drop it is a recursion of Rust's own.
        forget(fix);
        answered
    })
}

/// A refusal by 7 counts as well: it comes after the recursion is at its deepest.
const OPERATIONS: [(&str, Operation); 24] = [
    ("find", |a, _| a.names().find(NAME).is_ok()),
    ("intern", |a, r| a.intern(OutputTy::List(r)).is_ok()),
    ("get", |a, r| a.get(r).is_ok()),
    ("compare", |a, r| a.compare(r, first()).is_ok()),
    ("count_reachable", |a, r| a.count_reachable(r).is_ok()),
    ("unwrap_named", |a, r| a.unwrap_named(r).is_ok()),
    ("has_type_vars", |a, r| a.has_type_vars(r).is_ok()),
    ("needs_var_normalization", |a, r| {
        a.needs_var_normalization(r).is_ok()
    }),
    ("contains_bare_tyvar", |a, r| {
        a.contains_bare_tyvar(r).is_ok()
    }),
    ("has_shared_tyvar_across_lambda_params", |a, r| {
        a.has_shared_tyvar_across_lambda_params(r).is_ok()
    }),
    ("free_type_vars", |a, r| a.free_type_vars(r).is_ok()),
    ("structurally_eq", |a, r| a.structurally_eq(r, a, r).is_ok()),
    ("fits", fits),
    ("display", |a, r| a.display(r).is_ok()),
    ("display_nix", |a, r| a.display_nix(r).is_ok()),
    ("simplify", |a, r| a.simplify(r).is_ok()),
    ("normalize_vars", |a, r| a.normalize_vars(r).is_ok()),
    ("normalize_replacing_unknown", |a, r| {
        a.normalize_replacing_unknown(r).is_ok()
    }),
    ("normalize_set_ops", |a, r| a.normalize_set_ops(r).is_ok()),
    ("compact", |a, r| a.compact(r).is_ok()),
    ("import_from_arena", |a, r| {
        let mut target = TypeArena::new(a.names().clone());
        import_from_arena(&mut target, a, r).is_ok()
    }),
    ("write_sheet", |a, r| a.write_sheet(r).is_ok()),
    ("sheet_line", |a, r| {
        sheet_line(&a.write_sheet(r).expect("it fits")).is_ok()
    }),
    // The one name is the first, so that the sheet is an old one too.
    ("convert_sheet", |a, r| {
        convert_sheet(&mut a.write_sheet(r).expect("it fits")).is_ok()
    }),
];

/// At the bottom is U[int, b], from which `simplify` drops b, so that it rebuilds what stands above.
fn chain(step: Step) -> (TypeArena, TyRef) {
    let mut nodes = vec![
        OutputTy::Primitive(PrimitiveTy::Int),
        OutputTy::TyVar(1),
        OutputTy::Union(vec![first(), TyRef::from_raw(1)]),
    ];
    while nodes.len() < NODES {
        nodes.push(step(TyRef::from_raw(nodes.len() as u32 - 1)));
    }
    let names = Names::new([NAME]).expect("a name");
    let arena = TypeArena::from_nodes(names, nodes).expect("a sound arena");
    (arena, TyRef::from_raw(NODES as u32 - 1))
}

fn run(operation: usize, of: usize, kib: usize) {
    let (mut arena, root) = chain(CHAINS[of].1);
    let work = move || black_box(OPERATIONS[operation].1(&mut arena, root));
    let thread = thread::Builder::new().stack_size(kib * 1024).spawn(work);
    thread.expect("a thread").join().expect("no panic");
}

fn runs(operation: usize, of: usize, kib: usize) -> bool {
    let program = env::current_exe().expect("this program");
    let words = [operation, of, kib].map(|number| number.to_string());
    let mut child = Command::new(program);
    let status = child.args(words).stderr(Stdio::null()).status();
    status.expect("a child process").success()
}

/// The least stack in KiB, to 16 of them.
fn least(operation: usize, of: usize) -> usize {
    let (mut too_small, mut enough) = (16, 64 * 1024);
    assert!(runs(operation, of, enough), "no stack is enough");
    while enough - too_small > 16 {
        let middle = (enough + too_small) / 2;
        match runs(operation, of, middle) {
            true => enough = middle,
            false => too_small = middle,
        }
    }
    enough
}

fn main() {
    let given = env::args()
        .skip(1)
        .map(|word| word.parse().expect("a number"));
    let given: Vec<usize> = given.collect();
    if let [operation, of, kib] = given[..] {
        return run(operation, of, kib);
    }
    for (operation, (name, _)) in OPERATIONS.iter().enumerate() {
        let needed = (0..CHAINS.len()).map(|of| (least(operation, of), CHAINS[of].0));
        let needed: Vec<(usize, &str)> = needed.collect();
        let most = needed.iter().max().expect("there are chains");
        let least = needed.iter().min().expect("there are chains");
        println!("{name}: {} to {} KiB, most for {}", least.0, most.0, most.1);
    }
}
