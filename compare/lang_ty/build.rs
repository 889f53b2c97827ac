//! Gives the source files, unchanged, the names that Rust's modules look for: copies in OUT_DIR, since
//! `rt ci` refuses a checkout that holds links. `LANG_TY_SRC` says where they stand, seen from the
//! repository's root: a folder with the files under the documents' names, or a checkout of tix.

use std::path::{Path, PathBuf};
use std::{env, fs};

const FILES: [&str; 7] = [
    "lib",
    "arc_ty",
    "arena",
    "attrset",
    "primitive",
    "simplify",
    "stack",
];

fn main() {
    println!("cargo:rerun-if-env-changed=LANG_TY_SRC");
    println!("cargo:rerun-if-changed=build.rs");
    let setting = env::var("LANG_TY_SRC").unwrap_or("../shared/docs/src".into());
    let folder = |name: &str| PathBuf::from(env::var(name).unwrap());
    let source = folder("CARGO_MANIFEST_DIR").join("../..").join(setting);
    let out = folder("OUT_DIR");
    for file in FILES {
        let original = original(&source, file);
        println!("cargo:rerun-if-changed={}", original.display());
        let copy = out.join(format!("{file}.rs"));
        // An older build left a link there, through which a copy would be written into the source.
        let _ = fs::remove_file(&copy);
        fs::copy(original, copy).unwrap();
    }
    // lib.rs declares this module; it isn't among the files, and none of them uses it.
    fs::write(out.join("disjoint.rs"), "").unwrap();
}

fn original(source: &Path, file: &str) -> PathBuf {
    let named = [
        format!("src--crates--lang_ty--src--{file}.rs.txt"),
        format!("crates/lang_ty/src/{file}.rs"),
    ];
    let found = named.iter().find_map(|name| fs::canonicalize(source.join(name)).ok());
    found.unwrap_or_else(|| {
        let (one, other) = (&named[0], &named[1]);
        panic!("no {one} and no {other} in {} (set LANG_TY_SRC)", source.display())
    })
}
