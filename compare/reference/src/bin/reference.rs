//! Reads cases from standard input and writes an answer line for each. How many of each answer there
//! were goes to standard error.

use std::collections::BTreeMap;
use std::io::{self, BufWriter, Read, Write};
use std::panic::catch_unwind;
use std::process::exit;

use reference::answer::{answer, Answer};
use reference::case::{hex, Case, Reader};

fn main() -> io::Result<()> {
    // One deep stack for everything, also for the Rust's walks that don't ask for one.
    stacker::maybe_grow(0, 0, run)
}

fn run() -> io::Result<()> {
    let mut cases = Vec::new();
    io::stdin().read_to_end(&mut cases)?;
    let mut out = BufWriter::new(io::stdout().lock());
    let mut tally = BTreeMap::new();
    let mut count = |op: u8, what: String| *tally.entry((op, what)).or_insert(0) += 1;
    for case in Reader(&cases) {
        let Answer { line, left_out } = answer_or_end(&case);
        writeln!(out, "{line}")?;
        count(case.op(), verdict(&case, &line));
        if left_out {
            count(case.op(), "without the unchanged Rust".into());
        }
    }
    out.flush()?;
    for ((op, what), count) in tally {
        eprintln!("op {op}: {count} {what}");
    }
    Ok(())
}

/// Where the two runs disagree there is no answer: the case is shown and the program ends.
fn answer_or_end(case: &Case) -> Answer {
    catch_unwind(|| answer(case)).unwrap_or_else(|_| {
        eprintln!("case {}", hex(&case.write()));
        exit(1)
    })
}

/// The first word of an answer if it says how the call went, with the number of a refusal. An import that adds nothing counts
/// apart.
fn verdict(case: &Case, line: &str) -> String {
    let mut words = line.split(' ');
    match words.next() {
        Some("refused") => format!("refused {}", words.next().unwrap()),
        Some("ok") if adds_nothing(case, words.nth(1)) => "ok, nothing added".into(),
        Some(word @ ("ok" | "before" | "same" | "after" | "yes" | "no" | "found" | "absent")) => {
            word.into()
        }
        _ => "answered".into(),
    }
}

/// Whether a type was imported into a target that has as many nodes after as before.
fn adds_nothing(case: &Case, nodes: Option<&str>) -> bool {
    match case {
        Case::Import(_, _, target) => nodes == Some(target.memory.nodes.to_string().as_str()),
        _ => false,
    }
}
