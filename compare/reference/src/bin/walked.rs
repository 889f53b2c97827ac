//! What the program `walked` must print: the types that its lines name are built as nodes (`deep.rs`), each call is put as a case, and
//! its answer is the one that the reference gives to `vectors` and `vectors_reading`, so the unchanged Rust's; where a type can't be unfolded,
//! `simplify` is the second run's. Nothing of our program is run for it. The stored lines were made, and are made anew when a type or a call joins, by
//!
//!     compare/target/release/walked >crates/walked/stdout
//!
//! The test says whether they still are these.

use reference::answer::answer;
use reference::case::{Case, Host};
use reference::deep::{host, types};
use reference::TEXT;

/// The calls with their numbers among the operations.
const CALLS: [(&str, u8); 9] = [
    ("has_type_vars", 13),
    ("contains_bare_tyvar", 14),
    ("has_shared_tyvar_across_lambda_params", 15),
    ("needs_var_normalization", 11),
    ("unwrap_named", 16),
    ("count_reachable", 20),
    ("free_type_vars", 9),
    ("display", DISPLAY),
    ("simplify", SIMPLIFY),
];

const DISPLAY: u8 = 5;
const SIMPLIFY: u8 = 4;

/// The length of a text in 65,536 lent bytes, and how it begins.
fn displayed(host: Host, root: u32) -> String {
    let line = answer(&Case::Display(host, root, TEXT as u32)).line;
    let mut words = line.split(' ');
    let (Some("ok"), Some(length), Some(text)) = (words.next(), words.next(), words.next()) else {
        return line;
    };
    let bytes = text.as_bytes().chunks(2).take(20);
    let byte = |digits: &[u8]| u8::from_str_radix(std::str::from_utf8(digits).unwrap(), 16);
    let front: String = bytes.map(|digits| byte(digits).unwrap() as char).collect();
    format!("ok {length} {front}")
}

/// What a call answers, without the memory that it leaves.
fn said(op: u8, host: Host, root: u32) -> String {
    let case = match op {
        DISPLAY => return displayed(host, root),
        SIMPLIFY => Case::Simplify(host, root),
        _ => Case::OnType(op, host, root),
    };
    answer(&case).without_memory()
}

fn lines() -> String {
    let mut lines = String::new();
    for (name, nodes) in types() {
        let host = host(&nodes);
        let root = nodes.len() as u32 - 1;
        for (call, op) in CALLS {
            let answer = said(op, host.clone(), root);
            lines += &format!("{name}, {call}: {answer}\n");
        }
    }
    lines
}

fn main() {
    // The Rust's walks that ask for no stack are given one.
    print!("{}", stacker::maybe_grow(0, 0, lines));
}

#[test]
fn stored() {
    let stored = include_str!("../../../../crates/walked/stdout");
    assert_eq!(stacker::maybe_grow(0, 0, lines), stored);
}
