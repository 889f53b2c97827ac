//! Stand-in for `stacker`. The real one adds a segment whenever the stack runs low. Here the outermost
//! call moves to a thread whose stack is far deeper than 4,096 levels of any walk, and the calls
//! inside it go on there.

use std::cell::Cell;
use std::thread;

/// 128 KiB for each of 4,096 levels; the system hands out only the pages that are touched.
const STACK: usize = 4096 * 128 * 1024;

thread_local!(static DEEP: Cell<bool> = const { Cell::new(false) });

/// Carries a value to the deep thread and back.
struct Carried<T>(T);

// SAFETY: the calling thread waits for the deep one, so never do both touch the value, and neither
// outlives what it borrows.
unsafe impl<T> Send for Carried<T> {}

impl<T> Carried<T> {
    // A method, so that a closure captures the whole and not its one field.
    fn take(self) -> T {
        self.0
    }
}

pub fn maybe_grow<R, F: FnOnce() -> R>(_red_zone: usize, _size: usize, work: F) -> R {
    if DEEP.get() {
        return work();
    }
    let work = Carried(work);
    let deep = move || {
        DEEP.set(true);
        Carried(work.take()())
    };
    let done = thread::scope(|scope| {
        let builder = thread::Builder::new().stack_size(STACK);
        let thread = builder.spawn_scoped(scope, deep);
        thread.expect("no memory for a deep stack").join()
    });
    match done {
        Ok(result) => result.take(),
        Err(panic) => std::panic::resume_unwind(panic),
    }
}
