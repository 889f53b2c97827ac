//! Reads cases of operation 8 from standard input and writes the line of each sheet without the passes, which the Rust
//! doesn't count. Everything is done once, by the unchanged Rust: this program is measured, and answers for nothing.

use std::io::{self, BufWriter, Read, Write};

use reference::case::{Case, Reader};
use reference::sheet::unchanged_line;

fn main() -> io::Result<()> {
    // One deep stack for all: the stand-in makes a thread for each call that isn't on one.
    stacker::maybe_grow(0, 0, run)
}

fn run() -> io::Result<()> {
    let mut cases = Vec::new();
    io::stdin().read_to_end(&mut cases)?;
    let mut out = BufWriter::new(io::stdout().lock());
    for case in Reader(&cases) {
        let Case::Sheet(sheet) = case else {
            panic!("not a sheet");
        };
        match unchanged_line(&sheet) {
            Ok(line) => writeln!(out, "{line}")?,
            Err(refusal) => writeln!(out, "refused {refusal}")?,
        }
    }
    out.flush()
}
