//! The module `disjoint` of a checkout that `LANG_TY_SRC` names is a part of the crate.
#![cfg(not(feature = "outside-limits"))]

use std::path::Path;
use std::process::Command;
use std::{env, fs};

const MODULE: &str = "//! Which types have nothing in common.

use crate::{OutputTy, PrimitiveTy};

pub fn disjoint(one: PrimitiveTy, other: PrimitiveTy) -> bool {
    OutputTy::Primitive(one) != OutputTy::Primitive(other)
}
";

const CALLER: &str = "use lang_ty::{disjoint::disjoint, PrimitiveTy};

fn main() {
    print!(\"{}\", disjoint(PrimitiveTy::Int, PrimitiveTy::Uri));
}
";

fn write(file: &Path, text: &str) {
    let folder = file.parent().expect("a file stands in a folder");
    fs::create_dir_all(folder).expect("the folder can be made");
    fs::write(file, text).expect("the file can be written");
}

#[test]
fn a_caller_of_disjoint() {
    let here = Path::new(env!("CARGO_MANIFEST_DIR"));
    let work = Path::new(env!("CARGO_TARGET_TMPDIR")).join("disjoint");
    write(&work.join("tix/crates/lang_ty/src/disjoint.rs"), MODULE);
    write(&work.join("caller/src/main.rs"), CALLER);
    let head = "[package]\nname = \"caller\"\nedition = \"2021\"\n[workspace]\n[dependencies]\n";
    let manifest = work.join("caller/Cargo.toml");
    write(
        &manifest,
        &format!("{head}lang_ty = {{ path = {here:?} }}\n"),
    );
    let mut cargo = Command::new(env!("CARGO"));
    cargo
        .args(["run", "--offline", "--quiet", "--manifest-path"])
        .arg(manifest);
    cargo.arg("--target-dir").arg(work.join("target"));
    let ran = cargo.env("LANG_TY_SRC", work.join("tix")).output();
    let ran = ran.expect("cargo runs");
    let said = String::from_utf8_lossy(&ran.stderr);
    assert_eq!(ran.stdout, b"true", "{said}");
}
