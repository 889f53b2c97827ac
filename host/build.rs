//! Links the static library. `LANG_TY_LIB_DIR` says in which folder it stands; without it, where host/archive puts it.

use std::path::PathBuf;
use std::{env, fs, process};

fn main() {
    println!("cargo:rerun-if-env-changed=LANG_TY_LIB_DIR");
    println!("cargo:rerun-if-changed=build.rs");
    let manifest = PathBuf::from(env::var_os("CARGO_MANIFEST_DIR").expect("cargo sets it"));
    let folder = env::var_os("LANG_TY_LIB_DIR").unwrap_or("../target/staticlib".into());
    let folder = manifest.join(folder);
    let archive = folder.join("liblang_ty.a");
    println!("cargo:rerun-if-changed={}", archive.display());
    let Ok(folder) = fs::canonicalize(&folder) else {
        missing(archive)
    };
    if !archive.is_file() {
        missing(archive)
    }
    println!("cargo:rustc-link-search=native={}", folder.display());
    println!("cargo:rustc-link-lib=static=lang_ty");
}

fn missing(archive: PathBuf) -> ! {
    eprintln!(
        "there is no {}: run host/archive in the repository, or set LANG_TY_LIB_DIR",
        archive.display()
    );
    process::exit(1)
}
