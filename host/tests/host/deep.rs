//! The deepest types, on the stack that the crate says is enough. `examples/stack.rs` measures what is needed.

use std::panic;
use std::process::{Command, Stdio};

use coombtray::{
    import_from_arena, on_large_stack, AttrSetTy, Names, OutputTy, PrimitiveTy, TyRef, TypeArena,
    Value,
};

type Step = fn(TyRef) -> OutputTy;

const NODES: usize = 4_096;

/// All 4,096 nodes: a, int, and steps over a.
fn chain(step: Step) -> (TypeArena, TyRef) {
    chain_over(OutputTy::TyVar(0), step)
}

/// The same over another node.
fn chain_over(bottom: OutputTy, step: Step) -> (TypeArena, TyRef) {
    let mut nodes = vec![
        bottom,
        OutputTy::Primitive(PrimitiveTy::Int),
        step(TyRef::from_raw(0)),
    ];
    while nodes.len() < NODES {
        nodes.push(step(TyRef::from_raw(nodes.len() as u32 - 1)));
    }
    let names = Names::new(["p"]).unwrap();
    let arena = TypeArena::from_nodes(names, nodes).unwrap();
    (arena, TyRef::from_raw(NODES as u32 - 1))
}

fn int() -> TyRef {
    TyRef::from_raw(1)
}

const CHAINS: [Step; 6] = [
    OutputTy::List,
    |ty| OutputTy::Lambda {
        param: int(),
        body: ty,
    },
    |ty| OutputTy::Union(vec![ty, int()]),
    |ty| match ty.into_raw() % 2 {
        0 => OutputTy::Union(vec![ty, int()]),
        _ => OutputTy::Intersection(vec![ty, int()]),
    },
    |ty| OutputTy::AttrSet(AttrSetTy::from_internal([("p", ty)], false)),
    OutputTy::Neg,
];

#[test]
fn every_operation() {
    for step in CHAINS {
        on_large_stack(|| {
            let (mut t, root) = chain(step);
            let text = t.display(root).unwrap();
            assert!(text.len() >= NODES - 1);
            assert_eq!(t.display_nix(root).as_ref(), Ok(&text), "a plain name");
            assert_eq!(t.free_type_vars(root), Ok(vec![0]));
            assert_eq!(t.fits(root, &Value::Null).unwrap_err().number(), 14);
            assert!(t.has_type_vars(root).unwrap());
            assert!(t.needs_var_normalization(root).unwrap());
            assert!(t.contains_bare_tyvar(root).unwrap());
            assert!(!t.has_shared_tyvar_across_lambda_params(root).unwrap());
            assert_eq!(t.unwrap_named(root), Ok(root));
            assert!(t.count_reachable(root).unwrap() >= NODES as u32 - 1);
            let (copy, copied) = t.compact(root).unwrap();
            assert_eq!(t.structurally_eq(root, &copy, copied), Ok(true));
            let mut target = TypeArena::new(Names::new(["o", "p"]).unwrap());
            let imported = import_from_arena(&mut target, &t, root).unwrap();
            assert_eq!(t.structurally_eq(root, &target, imported), Ok(true));
            assert_eq!(import_from_arena(&mut t, &target, imported), Ok(root));
            assert_eq!(t.len(), NODES, "it was there");
            assert_eq!(t.normalize_vars(root), Ok(root));
            assert_eq!(t.normalize_replacing_unknown(root), Ok(root));
            // There is room for no node, but the recursion comes first.
            let _ = t.normalize_set_ops(root);
            let _ = t.simplify(root);
            assert_eq!(t.display(root), Ok(text));
        });
    }
}

#[test]
fn the_deepest_fix() {
    let lists = (1..1_024).fold(Value::List(vec![]), |inner, _| Value::List(vec![inner]));
    // Of each chain over any: whether it takes an int, and whether it takes the lists.
    let taken = [
        (false, true),
        (false, false),
        (true, true),
        (true, false),
        (false, false),
        (true, true),
    ];
    for (step, (int, deep)) in CHAINS.into_iter().zip(taken) {
        on_large_stack(|| {
            let (t, root) = chain_over(OutputTy::Top, step);
            assert_eq!(t.fits(root, &Value::Int(0)), Ok(int));
            assert_eq!(t.fits(root, &lists), Ok(deep));
        });
    }
}

#[test]
fn results_and_panics_are_handed_on() {
    let told = String::from("borrowed");
    assert_eq!(on_large_stack(|| told.len()), 8);
    let panic = panic::catch_unwind(|| on_large_stack(|| panic::resume_unwind(Box::new(7))));
    assert_eq!(panic.unwrap_err().downcast_ref(), Some(&7));
}

/// Too little stack ends the process, with a word from Rust's handler of the guard page. The child is this test again.
#[test]
fn an_overflow_ends_the_process() {
    const CHILD: &str = "COOMBTRAY_OVERFLOWS";
    if std::env::var_os(CHILD).is_some() {
        let (mut t, root) = chain(CHAINS[2]);
        let small = std::thread::Builder::new().stack_size(256 * 1024);
        let thread = small.spawn(move || t.simplify(root));
        thread.unwrap().join().unwrap().unwrap();
        return;
    }
    let mut child = Command::new(std::env::current_exe().unwrap());
    child.args(["--exact", "deep::an_overflow_ends_the_process"]);
    let child = child.env(CHILD, "").stdout(Stdio::null()).output();
    let child = child.unwrap();
    assert!(!child.status.success());
    let said = String::from_utf8_lossy(&child.stderr).into_owned();
    assert!(said.contains("has overflowed its stack"), "{said}");
}
