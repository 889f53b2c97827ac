//! The declarations in `lang_ty.h` and `src/ffi.rs` against the functions that are proved: the same names, and the same
//! parameters in the same order. Nothing else in the build compares them. What the header and the crate both say in words of
//! their own is held against each other too.

use std::collections::BTreeMap;
use std::fs;
use std::path::Path;

use coombtray::ffi;

use crate::refusals::each;

/// For each function its parameters, each as a name and a type in C's words, without spaces.
type Declared = BTreeMap<String, Vec<(String, String)>>;

fn read(file: &str) -> String {
    let path = Path::new(env!("CARGO_MANIFEST_DIR")).join(file);
    fs::read_to_string(&path).unwrap_or_else(|error| panic!("{}: {error}", path.display()))
}

/// Each function's name with what stands between its parentheses: `before` comes right before the name.
fn functions<'a>(text: &'a str, before: &str) -> Vec<(&'a str, &'a str)> {
    let found = text.split(before).skip(1);
    let found = found.filter_map(|rest| rest.split_once('('));
    let found = found.filter_map(|(name, rest)| Some((name, rest.split_once(") ->")?.0)));
    found.collect()
}

/// What the header defines a name as.
fn defined<'a>(header: &'a str, name: &str) -> &'a str {
    let line = format!("#define {name} ");
    let value = header.split(&line).nth(1).unwrap();
    value.lines().next().unwrap()
}

/// A parameter of C: the array's length counts, by the number that the header gives it.
fn of_c(parameter: &str, header: &str) -> (String, String) {
    let (of, name) = parameter.trim().rsplit_once(' ').unwrap();
    let (name, pointer) = match name.strip_prefix('*') {
        Some(name) => (name, "*"),
        None => (name, ""),
    };
    match name.split_once('[') {
        Some((name, size)) => {
            let size = defined(header, size.trim_end_matches(']'));
            (name.to_string(), format!("{of}[{size}]"))
        }
        None => (name.to_string(), format!("{of}{pointer}")),
    }
}

fn in_header(header: &str) -> Declared {
    let found = header.split("\nuint32_t ").skip(1);
    let found = found.map(|rest| {
        let (name, rest) = rest.split_once('(').unwrap();
        let parameters = rest.split_once(')').unwrap().0;
        let parameters = parameters.split(',').map(|one| of_c(one, header));
        (name.to_string(), parameters.collect())
    });
    found.collect()
}

/// The C type of a raw pointer or a number.
fn of_raw(of: &str) -> String {
    let lengths = [
        ("VARS", ffi::VARS),
        ("TYVAR_NAME", ffi::TYVAR_NAME),
        ("LINE", ffi::LINE),
    ];
    let known = match of {
        "u8" => "uint8_t",
        "u32" => "uint32_t",
        "usize" => "size_t",
        "*const u8" => "const uint8_t*",
        "*const u32" => "const uint32_t*",
        "*mut u8" => "uint8_t*",
        "*mut u32" => "uint32_t*",
        "*mut usize" => "size_t*",
        array => {
            let array = array.strip_prefix("*mut [").unwrap();
            let (item, name) = array.trim_end_matches(']').split_once("; ").unwrap();
            let length = lengths.iter().find(|(known, _)| *known == name).unwrap().1;
            return format!("{}[{length}]", of_raw(item));
        }
    };
    known.to_string()
}

fn in_ffi(ffi: &str) -> Declared {
    let found = functions(ffi, "pub fn ").into_iter();
    let found = found.map(|(name, parameters)| {
        let parameters = parameters.split(',').map(str::trim);
        let parameters = parameters.filter(|one| !one.is_empty()).map(|one| {
            let (name, of) = one.split_once(": ").unwrap();
            (name.to_string(), of_raw(of))
        });
        (name.to_string(), parameters.collect())
    });
    found.collect()
}

/// A parameter of a proved function: a slice is a pointer and a length.
fn of_source(parameter: &str) -> Vec<(String, String)> {
    let (name, of) = parameter.split_once(": ").unwrap();
    let item = |of: &str| of_raw(of.trim_start_matches("&mut [").trim_start_matches("&["));
    let one = |of: String| vec![(name.to_string(), of)];
    if let Some((array, size)) = of.split_once("; ") {
        return one(format!("{}[{}]", item(array), size.trim_end_matches(']')));
    }
    if let Some(slice) = of.strip_suffix(']') {
        let constant = if of.starts_with("&mut") { "" } else { "const " };
        let pointer = (name.to_string(), format!("{constant}{}*", item(slice)));
        return vec![pointer, (format!("{name}_len"), "size_t".to_string())];
    }
    match of.strip_prefix("&mut ") {
        Some(number) => one(format!("{}*", of_raw(number))),
        None => one(of_raw(of)),
    }
}

/// The source of the crates of C calls.
fn source() -> String {
    let crates = Path::new(env!("CARGO_MANIFEST_DIR")).join("../crates");
    let crates = fs::read_dir(crates).unwrap().map(|one| one.unwrap());
    let crates = crates.filter(|one| one.file_name().to_string_lossy().starts_with("lang_ty_"));
    let files = crates.flat_map(|one| fs::read_dir(one.path().join("src")).unwrap());
    let texts = files.map(|file| fs::read_to_string(file.unwrap().path()).unwrap());
    texts.collect()
}

fn in_source() -> Declared {
    let text = source();
    let found = functions(&text, "pub extern \"C\" fn ").into_iter();
    let found = found.map(|(name, parameters)| {
        let parameters = parameters.split(',').map(str::trim);
        let parameters = parameters.filter(|one| !one.is_empty()).flat_map(of_source);
        (name.to_string(), parameters.collect())
    });
    found.collect()
}

#[test]
fn the_same_everywhere() {
    let source = in_source();
    assert_eq!(source.len(), 27);
    assert_eq!(in_header(&read("lang_ty.h")), source);
    assert_eq!(in_ffi(&read("src/ffi.rs")), source);
}

#[test]
fn the_same_constants() {
    let header = read("lang_ty.h");
    let known = [
        ("LANG_TY_NAMES", ffi::NAMES),
        ("LANG_TY_TABLE", ffi::TABLE),
        ("LANG_TY_WORDS", ffi::WORDS),
        ("LANG_TY_STARTS", ffi::STARTS),
        ("LANG_TY_TEXT", ffi::TEXT),
        ("LANG_TY_SHEET", ffi::SHEET),
        ("LANG_TY_VALUES", ffi::VALUES),
        ("LANG_TY_LESS", ffi::LESS as usize),
        ("LANG_TY_EQUAL", ffi::EQUAL as usize),
        ("LANG_TY_GREATER", ffi::GREATER as usize),
    ];
    for (name, value) in known {
        assert_eq!(defined(&header, name), value.to_string(), "{name}");
    }
}

#[test]
fn the_same_version() {
    let header = read("lang_ty.h");
    let version = ["MAJOR", "MINOR", "PATCH"].map(|part| format!("LANG_TY_VERSION_{part}"));
    let version = version.map(|name| defined(&header, &name).to_string());
    assert_eq!(version.join("."), env!("CARGO_PKG_VERSION"));
}

#[test]
fn the_same_sentences() {
    let header = read("lang_ty.h");
    let quoted = header
        .split('"')
        .filter(|text| text.starts_with("refused "));
    let sentences: Vec<&str> = quoted.collect();
    assert_eq!(sentences, each().map(|refusal| refusal.to_string()));
}
