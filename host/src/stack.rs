use std::panic::resume_unwind;
use std::thread;

/// Stack, in bytes, that is enough for any one call on any arena; docs/HOST.md has what each call was measured to need.
pub const STACK: usize = 8 * 1024 * 1024;

/// Makes a thread with [`STACK`] bytes of stack, runs the work there and hands on what it gives, or its panic. Each
/// call makes a thread, so that it is for much work at once. The Rust's `with_stack` makes none: it gives more stack where little is left.
///
/// The library's recursion goes as deep as the type, at most 4,096 nodes. A type that is deeper than the caller's stack
/// allows ends the process at the stack's guard page.
pub fn on_large_stack<R: Send>(work: impl FnOnce() -> R + Send) -> R {
    thread::scope(|scope| {
        let builder = thread::Builder::new().stack_size(STACK);
        let thread = builder.spawn_scoped(scope, work);
        let thread = thread.expect("the system makes a thread");
        thread.join().unwrap_or_else(|panic| resume_unwind(panic))
    })
}
