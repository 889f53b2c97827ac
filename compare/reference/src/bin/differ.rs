//! `differ CASES EXPECTED GOT`: holds two files of answers side by side, shows the first difference with
//! its case in hex, and ends with 1 if there is any.

use std::process::exit;
use std::{env, fs, io};

use reference::case::{hex, Reader};

fn main() -> io::Result<()> {
    let files: Vec<_> = env::args()
        .skip(1)
        .map(fs::read)
        .collect::<Result<_, _>>()?;
    let [cases, expected, got] = &files[..] else {
        eprintln!("differ CASES EXPECTED GOT");
        exit(2);
    };
    let (expected, got) = (lines(expected), lines(got));
    let mut reader = Reader(cases);
    let mut count = 0;
    loop {
        let front = reader.0;
        let Some(case) = reader.next() else { break };
        let (left, right) = (expected.get(count), got.get(count));
        // The reference may have ended early too: two missing lines are no agreement.
        if left.is_none() || left != right {
            let bytes = &front[..front.len() - reader.0.len()];
            println!("case {count} (op {}) differs", case.op());
            println!("case     {}", hex(bytes));
            println!("expected {}", text(left));
            println!("got      {}", text(right));
            exit(1);
        }
        count += 1;
    }
    if count == 0 || expected.len() > count || got.len() > count {
        println!("answers without cases, or no case at all");
        exit(1);
    }
    println!("{count} cases, no difference");
    Ok(())
}

fn lines(file: &[u8]) -> Vec<&[u8]> {
    file.split_inclusive(|&b| b == b'\n').collect()
}

fn text(line: Option<&&[u8]>) -> String {
    let text = line.map(|line| String::from_utf8_lossy(line));
    text.map_or("(nothing)".into(), |text| text.trim_end().into())
}
