//! Names as the manual writes them: the worked names of request A1, that each reads back, and texts that have them.

use reference::layout::NEW;
use reference::node::{Field, Node};
use reference::rust::Rust;
use reference::sheet::{self, Sheet};
use reference::spelling::{spelled, stand_in};
use reference::TEXT;

const RESERVED: &str = "assert else if in inherit let or rec then with";

#[test]
fn worked() {
    for (name, expected) in [
        ("roll angle", r#""roll angle""#),
        ("or", r#""or""#),
        ("rec1", "rec1"),
        ("_", "_"),
        ("a'b-c", "a'b-c"),
        ("9a", r#""9a""#),
        ("-a", r#""-a""#),
        (r#"say "hi""#, r#""say \"hi\"""#),
        (r"a\b", r#""a\\b""#),
        ("${x}", r#""\${x}""#),
        ("$x", r#""$x""#),
        ("$${", r#""$\${""#),
        (r"\${", r#""\\\${""#),
    ] {
        assert_eq!(spelled(name), expected, "{name}");
    }
}

#[test]
fn reserved_words() {
    for word in RESERVED.split(' ') {
        assert_eq!(spelled(word), format!("\"{word}\""));
        for other in [format!("{word}s"), format!("_{word}"), word.to_uppercase()] {
            assert_eq!(spelled(&other), other);
        }
    }
}

/// What the manual reads as an identifier.
fn read_identifier(text: &[u8]) -> Option<Vec<u8>> {
    let first = text.first()?;
    let begins = first.is_ascii_alphabetic() || *first == b'_';
    let word = |b: &u8| b.is_ascii_alphanumeric() || b"_'-".contains(b);
    let reserved = RESERVED.split(' ').any(|word| word.as_bytes() == text);
    (begins && text.iter().all(word) && !reserved).then(|| text.to_vec())
}

/// What it reads between the quotes of a string; none where the string ends or an interpolation begins.
fn read_inner(mut rest: &[u8]) -> Option<Vec<u8>> {
    let mut name = vec![];
    while let [first, behind @ ..] = rest {
        let (read, left): (&[u8], _) = match (first, behind) {
            (b'"', _) | (b'\\', []) | (b'$', [b'{', ..]) => return None,
            (b'$', [b'$', left @ ..]) => (b"$$", left),
            (b'\\', [b'n', left @ ..]) => (b"\n", left),
            (b'\\', [b'r', left @ ..]) => (b"\r", left),
            (b'\\', [b't', left @ ..]) => (b"\t", left),
            (b'\\', [_, left @ ..]) => (&behind[..1], left),
            _ => (&rest[..1], behind),
        };
        name.extend(read);
        rest = left;
    }
    Some(name)
}

fn read(text: &[u8]) -> Option<Vec<u8>> {
    match text {
        [b'"', inner @ .., b'"'] => read_inner(inner),
        _ => read_identifier(text),
    }
}

/// All names of so many bytes over these.
fn names(bytes: &[u8], length: u32) -> impl Iterator<Item = Vec<u8>> + '_ {
    let digit = move |name: usize, place| bytes[name / bytes.len().pow(place) % bytes.len()];
    let name = move |name| (0..length).map(|place| digit(name, place)).collect();
    (0..bytes.len().pow(length)).map(name)
}

fn reads_back(name: Vec<u8>) {
    let text = spelled(std::str::from_utf8(&name).unwrap());
    assert_eq!(read(text.as_bytes()), Some(name), "{text}");
}

#[test]
fn read_back() {
    let printable: Vec<u8> = (32..=126).collect();
    (1..=2).for_each(|length| names(&printable, length).for_each(reads_back));
    (3..=5).for_each(|length| names(b"\"\\${ni-7", length).for_each(reads_back));
    // The reader takes another spelling too, and no text that isn't a name.
    assert_eq!(read(br#""$${""#), Some(b"$${".to_vec()));
    for none in [
        "",
        "or",
        "9a",
        "a b",
        "\"",
        r#""${x}""#,
        r#""a"b""#,
        r#""a\""#,
    ] {
        assert_eq!(read(none.as_bytes()), None, "{none}");
    }
}

#[test]
fn stand_ins_stand_as_their_numbers() {
    let all: Vec<String> = (0..4096).map(stand_in).collect();
    assert!(all.is_sorted_by(|left, right| left < right));
}

fn strings(names: &[&str]) -> Vec<String> {
    names.iter().map(|name| name.to_string()).collect()
}

fn field(name: u16, optional: bool, child: u32) -> Field {
    Field {
        optional,
        name,
        child,
    }
}

/// Fields in the order of their names as the table has them: by their spellings `a` would be the last.
fn drive() -> (Vec<Node>, Vec<String>) {
    let fields = vec![
        field(0, false, 0),
        field(1, false, 0),
        field(2, true, 0),
        field(3, false, 1),
    ];
    let nodes = vec![
        Node::Primitive(2),
        Node::Named(2, 0),
        Node::AttrSet(fields, Some(0), true),
    ];
    (nodes, strings(&["$x", "a", "or", "roll angle"]))
}

#[test]
fn both_texts() {
    let (nodes, names) = drive();
    let rust = Rust::holding(&nodes, &names);
    let bare = "{ $x: int, a: int, or?: int, roll angle: or, _: int, ... }";
    let nix = r#"{ "$x": int, a: int, "or"?: int, "roll angle": "or", _: int, ... }"#;
    assert_eq!(rust.display(2, TEXT), Ok(bare.into()));
    assert_eq!(rust.display_nix(2, TEXT), Ok(nix.into()));
    assert_eq!(rust.display_nix(2, nix.len()), Ok(nix.into()));
    assert_eq!(rust.display_nix(2, nix.len() - 1), Err(9));
}

#[test]
fn the_line_of_a_sheet() {
    let (nodes, names) = drive();
    let sheet = Sheet {
        names,
        nodes,
        root: 2,
    };
    let line = sheet::line(NEW, &sheet::write(NEW, &sheet, TEXT).unwrap(), &mut false);
    let text = r#"{ "$x": int, a: int, "or"?: int, "roll angle": "or", _: int, ... }"#;
    assert_eq!(line, Ok(format!("2 2 {text}")));
}

/// 9 is about the spelled text: 64 quotes take 130 bytes.
#[test]
fn the_limit() {
    let mut nodes = vec![Node::Primitive(2), Node::Named(0, 0)];
    nodes.extend((1..10).map(|under| Node::Lambda(under, under)));
    let names = strings(&[&"\"".repeat(64)]);
    let rust = Rust::holding(&nodes, &names);
    assert_eq!(rust.display_nix(1, 130).unwrap().len(), 130);
    assert_eq!(rust.display_nix(1, 129), Err(9));
    // 512 names, 511 arrows of four bytes and, round all but the innermost, 255 pairs of parentheses.
    let bare = rust.display(10, TEXT).unwrap();
    assert_eq!(bare.len(), 512 * 64 + 511 * 4 + 255 * 2);
    assert_eq!(rust.display_nix(10, TEXT), Err(9));
}
