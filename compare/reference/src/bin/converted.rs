//! The old sheet that the program `convert` is run on, and what it must write. Nothing of our program is run for it. The stored
//! bytes were made by
//!
//!     compare/target/release/converted old >crates/convert/stdin
//!     compare/target/release/converted new >crates/convert/stdout
//!
//! The test says whether they still are these.

use std::env;
use std::io::{self, Write};
use std::process::exit;

use reference::layout::OLD;
use reference::node::{Field, Node};
use reference::sheet::{convert, write, Sheet};
use reference::TEXT;

/// As many names as an old sheet may have, the first and the last of them in fields and aliases.
fn old() -> Vec<u8> {
    let field = |(optional, name, child)| Field {
        optional,
        name,
        child,
    };
    let fields = [(false, 0, 1), (true, 1, 0), (false, 128, 2), (true, 255, 3)];
    let set = Node::AttrSet(fields.map(field).into(), Some(2), true);
    let sheet = Sheet {
        names: (0..256).map(|name| format!("n{name:02x}")).collect(),
        nodes: vec![
            Node::TyVar(7),
            Node::Primitive(2),
            Node::Named(255, 0),
            Node::Named(1, 2),
            set,
        ],
        root: 4,
    };
    write(OLD, &sheet, TEXT).expect("it is short")
}

fn new() -> Vec<u8> {
    convert(&old()).expect("it is good")
}

fn main() -> io::Result<()> {
    let bytes = match env::args().nth(1).as_deref() {
        Some("old") => old(),
        Some("new") => new(),
        _ => {
            eprintln!("converted old | new");
            exit(2);
        }
    };
    io::stdout().write_all(&bytes)
}

#[test]
fn stored() {
    assert!(old() == include_bytes!("../../../../crates/convert/stdin"));
    assert!(new() == include_bytes!("../../../../crates/convert/stdout"));
}
