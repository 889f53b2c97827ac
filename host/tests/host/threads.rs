//! There is no global state: arenas of their own, on threads of their own, give what one thread gives.

use std::thread;

use coombtray::{import_from_arena, Names, OutputTy, TypeArena, Value};

use crate::build::*;

fn is_send_and_sync<T: Send + Sync>() {}

/// A thousand calls on one arena, with what they gave.
fn thousand_calls(seed: u32) -> Vec<String> {
    is_send_and_sync::<TypeArena>();
    is_send_and_sync::<Names>();
    is_send_and_sync::<Value>();
    let mut said = Vec::new();
    for round in 0..125 {
        let mut t = named(&["p", "q"]);
        let (a, b) = (var(&mut t, seed), var(&mut t, seed + round));
        let members = [a, int(&mut t), b];
        let list = union(&mut t, &members);
        let root = set(&mut t, &[("p", list), ("q", a)]);
        let done = t.simplify(root).unwrap();
        let done = t.normalize_vars(done.root).unwrap();
        said.push(t.display(done).unwrap());
    }
    said
}

#[test]
fn four_threads() {
    let threads = [0, 1, 2, 3].map(|seed| (seed, thread::spawn(move || thousand_calls(seed))));
    for (seed, thread) in threads {
        let said = thread.join().unwrap();
        assert_eq!(said.len(), 125);
        assert_eq!(said, thousand_calls(seed));
        assert!(said.iter().all(|text| text == "{ p: int, q: a }"));
    }
}

#[test]
fn one_arena_read_by_many() {
    let mut t = empty();
    let a = var(&mut t, 0);
    let root = put(&mut t, OutputTy::List(a));
    let any = put(&mut t, OutputTy::Top);
    let anys = list(&mut t, any);
    let fix = Value::List(vec![Value::Null; 9]);
    thread::scope(|scope| {
        for _ in 0..4 {
            scope.spawn(|| {
                for _ in 0..1_000 {
                    assert_eq!(t.display(root), Ok("[a]".into()));
                    assert_eq!(t.fits(anys, &fix), Ok(true));
                }
            });
        }
    });
}

#[test]
fn one_source_imported_by_many() {
    let mut source = named(&["p", "q"]);
    let a = var(&mut source, 0);
    let root = set(&mut source, &[("p", a), ("q", a)]);
    thread::scope(|scope| {
        for _ in 0..4 {
            scope.spawn(|| {
                for _ in 0..250 {
                    let mut target = named(&["a", "p", "q"]);
                    let imported = import_from_arena(&mut target, &source, root).unwrap();
                    assert_eq!(target.display(imported), Ok("{ p: a, q: a }".into()));
                }
            });
        }
    });
}
