//! Finds the module `disjoint`, which isn't ours: `src/disjoint.rs` if the user put it there, or the one of the checkout that
//! `LANG_TY_SRC` names (seen from the repository's root). Without either the module is empty.

use std::path::{Path, PathBuf};
use std::{env, fs};

fn main() {
    println!("cargo:rerun-if-env-changed=LANG_TY_SRC");
    println!("cargo:rerun-if-changed=build.rs");
    let folder = |name: &str| PathBuf::from(env::var_os(name).expect("cargo sets it"));
    let here = folder("CARGO_MANIFEST_DIR");
    let module = match found(&here) {
        Some(file) => format!("#[path = {file:?}]\npub mod disjoint;\n"),
        None => "pub mod disjoint {}\n".to_string(),
    };
    let written = fs::write(folder("OUT_DIR").join("disjoint_module.rs"), module);
    written.expect("the folder of the build can be written");
}

fn found(here: &Path) -> Option<PathBuf> {
    let mut places = vec![here.join("src/disjoint.rs")];
    if let Some(source) = env::var_os("LANG_TY_SRC") {
        let source = here.join("../..").join(source);
        places.push(source.join("crates/lang_ty/src/disjoint.rs"));
        places.push(source.join("src--crates--lang_ty--src--disjoint.rs.txt"));
    }
    // Folders are watched, since a file that isn't there would count as changed at every build.
    let folders = places.iter().filter_map(|place| place.parent());
    for folder in folders.filter(|folder| folder.is_dir()) {
        println!("cargo:rerun-if-changed={}", folder.display());
    }
    places
        .into_iter()
        .find_map(|place| fs::canonicalize(place).ok())
}
