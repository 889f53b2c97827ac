//! The name table, names as the manual writes them, and more names for an arena that has nodes.

use coombtray::{
    ffi, sheet_line, AttrSetTy, Field, Names, OutputTy, PrimitiveTy, Refusal, TyRef, TypeArena,
};

use crate::build::*;

#[test]
fn sorted_and_each_once() {
    let names = Names::new(["roll", "Pitch", "a b", "roll", "ro"]).unwrap();
    assert_eq!(
        names.iter().collect::<Vec<_>>(),
        ["Pitch", "a b", "ro", "roll"]
    );
    assert_eq!(names.table(), b"\x05Pitch\x03a b\x02ro\x04roll");
    assert_eq!((names.len(), names.is_empty()), (4, false));
    assert!(Names::new([""; 0]).unwrap().is_empty());
}

/// 4,096 names of 4 to 64 bytes that have 65,536 bytes together, each with its length byte.
pub fn as_many_as_can_be() -> Vec<String> {
    let text = |k: usize| {
        let more = match k % 16 {
            0 => 60,
            1 => 4,
            _ => 8,
        };
        format!("{k:04}{}", "~".repeat(more))
    };
    (0..4_096).map(text).collect()
}

/// Where the library finds the text of a name.
fn text_at(table: &[u8], number: u32) -> &[u8] {
    let (mut start, mut length) = (0, 0);
    let (bytes, count) = (table.as_ptr(), table.len());
    // SAFETY: the table lives through the call, and so do the two numbers.
    let answer = unsafe { ffi::lang_ty_name_at(bytes, count, number, &mut start, &mut length) };
    assert_eq!(answer, 0);
    &table[start..start + length]
}

#[test]
fn as_many_and_as_long_as_can_be() {
    let texts = as_many_as_can_be();
    let names = Names::new(texts.iter().rev()).unwrap();
    assert_eq!((names.len(), names.table().len()), (4_096, 65_536));
    assert!(names.iter().eq(texts.iter().map(String::as_str)));
    for number in [0, 1, 2, 2_048, 4_095] {
        let text = text_at(names.table(), number as u32);
        assert_eq!(text, texts[number].as_bytes());
    }
    // A node for each name but the first, over node 0.
    let int = TyRef::from_raw(0);
    let named = |text: &String| OutputTy::Named(text.clone(), int);
    let nodes = [OutputTy::Primitive(PrimitiveTy::Int)];
    let nodes = nodes.into_iter().chain(texts[1..].iter().map(named));
    let t = TypeArena::from_nodes(names, nodes).unwrap();
    for number in [1, 255, 256, 257, 4_094, 4_095] {
        let (ty, text) = (TyRef::from_raw(number), &texts[number as usize]);
        assert_eq!(t.get(ty), Ok(named(text)));
        assert_eq!(t.display(ty).as_ref(), Ok(text));
    }
}

#[test]
fn as_many_bytes_as_can_be() {
    let refused = |texts: &[String]| Names::new(texts).map_err(Refusal::number).err();
    let mut texts = as_many_as_can_be();
    texts[7].push('~');
    assert_eq!(refused(&texts), Some(1), "65,537 bytes");
    texts.pop();
    assert_eq!(refused(&texts), None);
    // 1,008 names of 64 bytes leave 16 bytes.
    let mut texts: Vec<String> = (0..1_008).map(|k| format!("{k:064}")).collect();
    texts.push("~".repeat(15));
    let names = Names::new(&texts).unwrap();
    assert_eq!((names.len(), names.table().len()), (1_009, 65_536));
    texts.push("}".into());
    assert_eq!(refused(&texts), Some(1), "65,538 bytes");
    texts.pop();
    texts[1_008].push('~');
    assert_eq!(refused(&texts), Some(1), "65,537 bytes");
    let mut t = TypeArena::new(names);
    let before = t.clone();
    assert_eq!(t.add_names(["}"]).map_err(Refusal::number), Err(1));
    assert!(untouched(&t, &before));
}

#[test]
fn names_that_are_refused() {
    let refused = |name: &str| Names::new([name]).map_err(Refusal::number) == Err(1);
    assert!(!refused(&"n".repeat(64)));
    for length in [0, 65, 255, 256, 70_000] {
        assert!(refused(&"n".repeat(length)), "{length} bytes");
    }
    // 257 bytes, which is 1 as a byte; they would read as a table of five names, `?` being 63.
    let parts = ["b", "c", "d", "e"].map(|letter| format!("?{}", letter.repeat(63)));
    assert!(refused(&format!("a{}", parts.concat())));
    for name in ["\u{1f}", "\u{7f}", "é", "a\nb", "\0"] {
        assert!(refused(name), "{name:?}");
    }
    assert!(!refused(" ~"));
    let many = |count: usize| Names::new((0..count).map(|number| number.to_string()));
    assert_eq!(many(4_096).unwrap().len(), 4_096);
    assert_eq!(many(4_097).map_err(Refusal::number), Err(1));
}

/// Names, and how the manual writes them.
const WORKED: [(&str, &str); 13] = [
    ("roll angle", r#""roll angle""#),
    ("or", r#""or""#),
    ("rec1", "rec1"),
    ("_", "_"),
    ("a'b-c", "a'b-c"),
    ("9a", r#""9a""#),
    ("-a", r#""-a""#),
    (r#"say "hi""#, r#""say \"hi\"""#),
    (r"a\b", r#""a\\b""#),
    ("${x}", r#""\${x}""#),
    ("$x", r#""$x""#),
    ("$${", r#""$\${""#),
    (r"\${", r#""\\\${""#),
];

/// Checks both prints of each name as a named type.
fn are_spelled<T: AsRef<str>>(worked: &[(T, T)]) {
    let names = Names::new(worked.iter().map(|(name, _)| name)).unwrap();
    let mut t = TypeArena::new(names);
    let int = int(&mut t);
    for (name, spelled) in worked {
        let (name, spelled) = (name.as_ref(), spelled.as_ref());
        let named = put(&mut t, OutputTy::Named(name.into(), int));
        assert_eq!(t.display(named).as_deref(), Ok(name));
        assert_eq!(t.display_nix(named).as_deref(), Ok(spelled));
    }
}

#[test]
fn the_worked_names() {
    are_spelled(&WORKED);
}

#[test]
fn fields_stand_in_the_order_of_their_names() {
    let mut worked = WORKED;
    worked.sort();
    let mut t = named(&worked.map(|(name, _)| name));
    let int = int(&mut t);
    let root = set(&mut t, &worked.map(|(name, _)| (name, int)));
    let of = |spelled: [&str; 13]| format!("{{ {}: int }}", spelled.join(": int, "));
    assert_eq!(t.display(root), Ok(of(worked.map(|(name, _)| name))));
    let text = of(worked.map(|(_, spelled)| spelled));
    let line = sheet_line(&t.write_sheet(root).unwrap());
    assert_eq!(line, Ok(format!("1 2 {text}")));
    assert_eq!(t.display_nix(root), Ok(text));
}

#[test]
fn reserved_words() {
    let mut worked = Vec::new();
    for word in "assert else if in inherit let or rec then with".split(' ') {
        worked.push((word.to_string(), format!("\"{word}\"")));
        let more = format!("{word}s");
        let others = [more, word.to_uppercase(), word[1..].to_string()];
        worked.extend(others.map(|other| (other.clone(), other)));
    }
    are_spelled(&worked);
}

/// Each byte that a name may have: alone, behind a letter, and behind a dollar.
#[test]
fn every_byte() {
    for front in ["", "a", "$"] {
        let worked = (b' '..=b'~').map(char::from).map(|byte| {
            let begins = byte.is_ascii_alphabetic() || byte == '_';
            let goes_on = byte.is_ascii_digit() || byte == '\'' || byte == '-';
            let plain = front != "$" && (begins || front == "a" && goes_on);
            let name = format!("{front}{byte}");
            let spelled = match byte {
                _ if plain => name.clone(),
                '"' | '\\' => format!("\"{front}\\{byte}\""),
                '{' if front == "$" => "\"\\${\"".to_string(),
                _ => format!("\"{name}\""),
            };
            (name, spelled)
        });
        are_spelled(&worked.collect::<Vec<_>>());
    }
}

#[test]
fn more_names() {
    let mut t = named(&["chainage", "roll"]);
    let int = int(&mut t);
    let mut attrs = AttrSetTy::from_internal([("chainage", int), ("roll", int)], true);
    attrs.dyn_ty = Some(int);
    attrs.fields.insert("roll".into(), Field::optional(int));
    let of = put(&mut t, OutputTy::AttrSet(attrs));
    let root = put(&mut t, OutputTy::Named("roll".into(), of));
    let nodes: Vec<OutputTy> = t.nodes().collect();
    let (before, text) = (t.clone(), t.display(of).unwrap());

    t.add_names(["zero", "a", "pitch", "roll"]).unwrap();
    assert_eq!(
        t.names().iter().collect::<Vec<_>>(),
        ["a", "chainage", "pitch", "roll", "zero"]
    );
    assert_eq!(t.nodes().collect::<Vec<_>>(), nodes);
    assert_eq!(t.display(of), Ok(text));
    assert!(t.words() != before.words(), "name numbers are others");
    assert_eq!(before.structurally_eq(root, &t, root), Ok(true));
    t.intern(OutputTy::Named("pitch".into(), of)).unwrap();
}

#[test]
fn more_names_that_are_refused() {
    let mut t = named(&["roll"]);
    let int = int(&mut t);
    put(&mut t, OutputTy::Named("roll".into(), int));
    let before = t.clone();
    assert_eq!(t.add_names([""]).map_err(Refusal::number), Err(1));
    let many = (0..4_096).map(|number| number.to_string());
    assert_eq!(t.add_names(many).map_err(Refusal::number), Err(1));
    assert!(untouched(&t, &before));
    // An arena without a word to spare has room for its nodes under any names.
    let full = TypeArena::with_capacity(t.names().clone(), 4, 2);
    let mut full = full.unwrap();
    for node in t.nodes() {
        full.intern(node).unwrap();
    }
    full.add_names(["a"]).unwrap();
    assert_eq!(full.display(TyRef::from_raw(1)), Ok("roll".into()));
}
