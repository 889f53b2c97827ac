//! The Rust itself, unchanged, read from where it stands (see build.rs).

include!(concat!(env!("OUT_DIR"), "/lib.rs"));

/// The one function to be compared that the source keeps to its own crate.
pub fn tyvar_name(index: u32) -> String {
    arc_ty::tyvar_name(index)
}
