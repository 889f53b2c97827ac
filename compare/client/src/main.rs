//! A client of `lang_ty` that uses all that is public there and writes down every answer. It is built over the unchanged Rust and, from
//! this same source, over the drop-in; both must print the same.
//!
//!   client fixed tame|wild        what is asked once, deep types, threads, each limit (wild: one beyond it)
//!   client SEED COUNT tame|wild   random types
//!   client cycle|questions ROUNDS what is measured

mod cycle;
mod deep;
mod edges;
mod primitives;
#[path = "../../generate/src/random.rs"]
mod random;
mod report;
mod surface;
mod types;
mod values;

use std::env;
use std::io::{self, BufWriter, Write};

use lang_ty::stack::with_stack;
use random::Random;
use types::Kind;

fn kind(word: &str) -> Option<Kind> {
    match word {
        "tame" => Some(Kind::Tame),
        "wild" => Some(Kind::Wild),
        _ => None,
    }
}

fn fixed(kind: Kind) -> io::Result<()> {
    let mut out = String::new();
    surface::report(&mut out);
    deep::report(&mut out, kind);
    edges::report(&mut out, kind);
    io::stdout().write_all(out.as_bytes())
}

fn random_types(seed: u64, count: u64, kind: Kind) -> io::Result<()> {
    let mut stdout = BufWriter::new(io::stdout().lock());
    for case in 0..count {
        let mut random = Random::new(seed, kind as u8, case);
        let mut out = format!("type {case}\n");
        let mut all = || report::report(&mut out, &mut random, kind);
        // Inside, no call has to see to its own stack, which takes long with the stand-in; some types do without.
        match case % 20 {
            0 => all(),
            _ => with_stack(all),
        }
        stdout.write_all(out.as_bytes())?;
    }
    stdout.flush()
}

fn run() -> Option<io::Result<()>> {
    let words: Vec<_> = env::args().skip(1).collect();
    let words: Vec<_> = words.iter().map(String::as_str).collect();
    match words[..] {
        ["fixed", which] => Some(fixed(kind(which)?)),
        // As for the random types: no call makes a thread of its own.
        [what @ ("cycle" | "questions"), rounds] => {
            let rounds = rounds.parse().ok()?;
            Some(with_stack(|| cycle::run(what, rounds)))
        }
        [seed, count, which] => Some(random_types(
            seed.parse().ok()?,
            count.parse().ok()?,
            kind(which)?,
        )),
        _ => None,
    }
}

fn main() -> io::Result<()> {
    run().unwrap_or_else(|| {
        eprintln!(
            "client (fixed | SEED COUNT) (tame | wild), or client (cycle | questions) ROUNDS"
        );
        std::process::exit(2)
    })
}
