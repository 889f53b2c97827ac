//! Recursion that goes as deep as a type.

/// The stack of a thread that works on large files.
pub const WORKER_STACK_SIZE: usize = 16 * 1024 * 1024;

/// With less than this left, `with_stack` adds a segment.
pub const STACK_RED_ZONE: usize = 256 * 1024;

/// How large such a segment is.
pub const STACK_GROW_SIZE: usize = 1024 * 1024;

/// Runs `f`, on a new segment of stack if less than [`STACK_RED_ZONE`] is left.
#[inline]
pub fn with_stack<R>(f: impl FnOnce() -> R) -> R {
    stacker::maybe_grow(STACK_RED_ZONE, STACK_GROW_SIZE, f)
}

/// A type of so many levels is walked without a look at the stack: it needs 140 KiB at most, and a caller that uses
/// `with_stack` has more. A look would cost more than most calls where `stacker` is the stand-in.
const SHALLOW: u32 = 64;

/// More than the library's deepest call takes, for any number of levels (docs/HOST.md, "Stack"; the tests below).
const AT_LEAST: usize = 128 * 1024;
const PER_LEVEL: usize = 1280;

/// Runs a step of a recursion that has so many levels below it.
pub(crate) fn step<R>(levels: u32, f: impl FnOnce() -> R) -> R {
    if levels <= SHALLOW {
        return f();
    }
    with_stack(f)
}

/// Runs a call of the library, which recurses through so many levels at once.
pub(crate) fn for_library<R>(levels: u32, f: impl FnOnce() -> R) -> R {
    if levels <= SHALLOW {
        return f();
    }
    let needed = AT_LEAST + levels as usize * PER_LEVEL;
    stacker::maybe_grow(needed, coombtray::STACK, f)
}

#[cfg(test)]
mod tests {
    use super::{AT_LEAST, PER_LEVEL, SHALLOW};
    use coombtray::{AttrSetTy, Names, OutputTy, PrimitiveTy, TyRef, TypeArena};
    use std::thread;

    type Step = fn(TyRef) -> OutputTy;

    /// One of each way through the library's recursions.
    const STEPS: [Step; 5] = [
        OutputTy::List,
        |ty| OutputTy::Lambda {
            param: ty,
            body: TyRef::from_raw(1),
        },
        |ty| OutputTy::Union(vec![ty, TyRef::from_raw(1)]),
        |ty| OutputTy::AttrSet(AttrSetTy::from_internal([("p", ty)], false)),
        OutputTy::Neg,
    ];

    /// So many steps over a variable.
    fn chain(levels: u32, step: Step) -> (TypeArena, TyRef) {
        let int = OutputTy::Primitive(PrimitiveTy::Int);
        let mut nodes = vec![OutputTy::TyVar(0), int, step(TyRef::from_raw(0))];
        for child in 2..=levels {
            nodes.push(step(TyRef::from_raw(child)));
        }
        let arena = TypeArena::from_nodes(Names::new(["p"]).unwrap(), nodes).unwrap();
        (arena, TyRef::from_raw(levels + 1))
    }

    /// Each call for which `for_library` is asked, on a thread with this much stack. One that needs more ends the process.
    fn run_in(bytes: usize, levels: u32) {
        for step in STEPS {
            let (mut arena, root) = chain(levels, step);
            let calls = move || {
                assert_eq!(arena.free_type_vars(root), Ok(vec![0]));
                assert!(arena.display(root).is_ok());
                assert!(arena.compact(root).is_ok());
                assert_eq!(arena.normalize_vars(root), Ok(root));
                assert_eq!(arena.normalize_replacing_unknown(root), Ok(root));
                // There may be room for no node, but the recursion comes first.
                let _ = arena.normalize_set_ops(root);
                let _ = arena.simplify(root);
            };
            let thread = thread::Builder::new().stack_size(bytes).spawn(calls);
            thread.unwrap().join().unwrap();
        }
    }

    #[test]
    fn the_deepest_types_run_in_what_is_asked_for() {
        let levels = 4_094;
        run_in(AT_LEAST + levels as usize * PER_LEVEL, levels);
    }

    #[test]
    fn what_is_not_looked_at_runs_in_less_than_the_red_zone() {
        run_in(140 * 1024, SHALLOW);
    }
}
