//! Runs each operation on the same types by ours and by the unchanged Rust. `compare/bench-operations` makes the types,
//! starts this and makes tables of what it writes.
//!
//!   operations agree FILE ..     compares all answers and arenas, and panics where they differ
//!   operations times FILE ..     the mean of the least times of each call, in ns: the file, the operation, which of the
//!                                three (ours in `full` buffers, in `snug` ones, the `rust`), the time
//!   operations counts FILE ..    what is counted by callgrind from one call of `counted` to the next: the file, the
//!                                operation, which of the three, how many calls
//!
//! A file has cases of operation 8 (docs/COMPARISON.md), a sheet each. The types of a file `changing` must become others by
//! each operation that rewrites, and those alone run on them; on files `long` and `repeated` `simplify` and `normalize_set_ops`
//! alone do; on files `alike` and `unlike` (src/bin/alike.rs) `unwrap_named` alone, and on those of src/bin/fixes.rs, which
//! have cases of operation 27, also `fits`. On all these ours runs in full buffers alone.

mod ours;
mod side;
mod theirs;

use std::hint::black_box;
use std::time::{Duration, Instant};
use std::{env, fs};

use reference::calls;
use reference::case::{Case, Reader};
use reference::layout::NEW;
use reference::node::Node;
use reference::sheet::{self, Sheet};
use reference::{NODES, WORDS};

use ours::Ours;
use side::{Answer, Operation, Side, OPERATIONS};
use theirs::Theirs;

const ROUNDS: usize = 15;
/// How long a round of one side goes on, unless one call a type takes longer.
const ROUND: Duration = Duration::from_millis(4);

/// Which operations run on the types of a file of this name, if these are few.
fn few(path: &str) -> Option<fn(Operation) -> bool> {
    match path {
        "changing" => Some(Operation::rewrites),
        "long" | "repeated" => {
            Some(|one| matches!(one, Operation::Simplify | Operation::NormalizeSetOps))
        }
        "alike" | "unlike" => Some(|one| one == Operation::UnwrapNamed),
        "drive" | "nested" | "unions" | "wide" => {
            Some(|one| matches!(one, Operation::UnwrapNamed | Operation::Fits))
        }
        _ => None,
    }
}

/// A type, and the words of a fix if the case has one.
fn given(case: Case) -> (Sheet, Vec<u32>) {
    match case {
        Case::Sheet(bytes) => {
            let sheet = sheet::read(NEW, &bytes).expect("a faulty sheet");
            (sheet, vec![])
        }
        Case::Fits(host, root, fix) => {
            let (names, nodes) = calls::read(&host).expect("a faulty arena");
            (Sheet { names, nodes, root }, fix)
        }
        _ => panic!("neither a sheet nor a fix"),
    }
}

/// The types of a file, held three times; `snug` is empty where not every operation runs.
struct Held {
    operations: Vec<(Operation, &'static str)>,
    given: Vec<(Vec<Node>, u32)>,
    full: Vec<Ours>,
    snug: Vec<Ours>,
    rust: Vec<Theirs>,
}

fn hold(path: &str) -> Held {
    let cases = fs::read(path).expect("no such file");
    let few = few(path);
    let runs = few.unwrap_or(|one| one != Operation::Fits);
    let operations = OPERATIONS.into_iter().filter(|one| runs(one.0));
    let operations: Vec<_> = operations.collect();
    let (mut types, mut full, mut snug, mut rust) = (vec![], vec![], vec![], vec![]);
    for case in Reader(&cases) {
        let (Sheet { names, nodes, root }, fix) = given(case);
        let used: usize = nodes.iter().map(|n| n.size()).sum();
        let two = (WORDS.min(2 * used), NODES.min(2 * nodes.len()));
        full.push(Ours::holding(&nodes, &names, root, (WORDS, NODES)).with_fix(&fix));
        if few.is_none() {
            snug.push(Ours::holding(&nodes, &names, root, two));
        }
        rust.push(Theirs::holding(&nodes, &names, root, &fix));
        types.push((nodes, root));
    }
    Held {
        operations,
        given: types,
        full,
        snug,
        rust,
    }
}

fn agree(path: &str) {
    let mut held = hold(path);
    for (operation, _) in held.operations {
        for (k, given) in held.given.iter().enumerate() {
            let expected = answer(&mut held.rust[k], operation);
            let changed = changed(&expected, given);
            assert!(changed || path != "changing", "{operation:?} changed none");
            let ours = [held.full.get_mut(k), held.snug.get_mut(k)];
            for ours in ours.into_iter().flatten() {
                assert_eq!(answer(ours, operation), expected, "{operation:?}");
            }
        }
    }
}

/// Whether the type is another: it has another root, above more nodes than there were, or its copy has other nodes.
fn changed((answer, after): &(Answer, Vec<Node>), (nodes, root): &(Vec<Node>, u32)) -> bool {
    match answer {
        Answer::Number(number) => number != root && after.len() > nodes.len(),
        Answer::Copy(_, copy) => copy != nodes,
        _ => false,
    }
}

fn answer<S: Side>(side: &mut S, operation: Operation) -> (Answer, Vec<Node>) {
    side.prepare(operation, 0);
    let made = side.call(operation);
    side.outcome(operation, made)
}

/// The time of each call alone, in ns, of so many for each type.
fn time<S: Side>(sides: &mut [S], operation: Operation, calls: usize) -> Vec<u64> {
    let mut spent = Vec::with_capacity(calls * sides.len());
    for side in sides {
        for turn in 0..calls {
            side.prepare(operation, turn);
            let start = Instant::now();
            let made = black_box(side.call(operation));
            spent.push(start.elapsed().as_nanos() as u64);
            drop(made);
        }
    }
    spent
}

/// The least time of each call in any round.
struct Least {
    calls: usize,
    each: Vec<u64>,
}

impl Least {
    /// As many calls as fit a round, with what is made ready for them.
    fn of<S: Side>(sides: &mut [S], operation: Operation) -> Least {
        let start = Instant::now();
        time(sides, operation, 1);
        let calls = (ROUND.as_nanos() / start.elapsed().as_nanos().max(1)).clamp(1, 2000) as usize;
        let each = vec![u64::MAX; calls * sides.len()];
        Least { calls, each }
    }

    fn round<S: Side>(&mut self, sides: &mut [S], operation: Operation) {
        let spent = time(sides, operation, self.calls);
        for (least, spent) in self.each.iter_mut().zip(spent) {
            *least = spent.min(*least);
        }
    }

    fn mean(&self, clock: u64) -> f64 {
        let all: u64 = self.each.iter().map(|least| least - clock).sum();
        all as f64 / self.each.len() as f64
    }
}

/// What a measurement of nothing takes at least.
fn clock() -> u64 {
    let nothing = || black_box(Instant::now()).elapsed().as_nanos() as u64;
    (0..100_000).map(|_| nothing()).min().unwrap_or(0)
}

/// Those on which an operation of the Rust's is measured: it has none like `fits`.
fn of_the_rust(rust: &mut [Theirs], operation: Operation) -> &mut [Theirs] {
    match operation {
        Operation::Fits => &mut [],
        _ => rust,
    }
}

fn times(path: &str, clock: u64) {
    let mut held = hold(path);
    for (operation, name) in held.operations {
        let rust_held = of_the_rust(&mut held.rust, operation);
        let mut full = Least::of(&mut held.full, operation);
        let mut snug = Least::of(&mut held.snug, operation);
        let mut rust = Least::of(rust_held, operation);
        for _ in 0..ROUNDS {
            full.round(&mut held.full, operation);
            snug.round(&mut held.snug, operation);
            rust.round(rust_held, operation);
        }
        for (which, least) in [("full", full), ("snug", snug), ("rust", rust)] {
            if !least.each.is_empty() {
                println!("{path}\t{name}\t{which}\t{}", least.mean(clock));
            }
        }
    }
}

/// Callgrind writes what it counted, and begins anew, where this is called.
#[no_mangle]
#[inline(never)]
fn counted(line: String) {
    println!("{line}");
}

fn count<S: Side>(path: &str, which: &str, sides: &mut [S], operation: (Operation, &str)) {
    // Only where a stored node is interned does a call differ from the one before.
    let turns = if operation.0 == Operation::InternStored {
        4
    } else {
        1
    };
    time(sides, operation.0, turns);
    let calls = turns * sides.len();
    if calls == 0 {
        return;
    }
    counted(format!("{path}\t{}\t{which}\t{calls}", operation.1));
}

fn counts(path: &str) {
    let mut held = hold(path);
    for operation in held.operations {
        count(path, "full", &mut held.full, operation);
        count(path, "snug", &mut held.snug, operation);
        let rust = of_the_rust(&mut held.rust, operation.0);
        count(path, "rust", rust, operation);
    }
}

fn run() {
    let words: Vec<String> = env::args().skip(1).collect();
    let (mode, paths) = words.split_first().expect("a mode and files");
    for path in paths {
        match mode.as_str() {
            "agree" => agree(path),
            "times" => times(path, clock()),
            "counts" => counts(path),
            _ => panic!("agree, times or counts"),
        }
    }
}

fn main() {
    // One deep stack for all: the stand-in makes a thread for each call that isn't on one.
    stacker::maybe_grow(0, 0, run)
}
