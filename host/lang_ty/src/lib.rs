//! The crate `lang_ty` under its own names, paths and signatures, over the proved static library: a caller changes the path
//! in its Cargo.toml and no line of code. README.md says what the library answers and what is plain Rust.
//!
//! ```
//! use lang_ty::{arc_ty, simplify::simplify, TypeArena};
//!
//! let mut arena = TypeArena::new();
//! let either = arc_ty!(arena, union!((# 0), Float));
//! let simplified = simplify(&mut arena, either);
//! assert_eq!(arena.display(simplified).to_string(), "float");
//! ```

#![deny(unsafe_op_in_unsafe_fn)]

pub mod arc_ty;
pub mod arena;
mod attrset;
mod import;
mod index;
mod laid;
mod library;
mod macros;
mod names;
mod order;
mod owned;
mod parens;
mod primitive;
mod reach;
mod refusal;
pub mod simplify;
pub mod stack;
mod truncated;
mod ty;
mod words;

#[cfg(feature = "outside-limits")]
mod answering;
#[cfg(feature = "outside-limits")]
pub mod outside_limits;
#[cfg(feature = "outside-limits")]
mod plain;
#[cfg(not(feature = "outside-limits"))]
mod refusing;

include!(concat!(env!("OUT_DIR"), "/disjoint_module.rs"));

pub use arc_ty::{DisplayConfig, OutputTy, Substitutions, TyRef};
pub use arena::{import_from_arena, import_node_from_arena, OwnedTy, TypeArena, TypeDisplay};
pub use attrset::AttrSetTy;
pub use primitive::PrimitiveTy;
pub use ty::{RefType, Ty};

/// For the macro `arc_ty`, whose caller may not depend on it.
#[doc(hidden)]
pub use smol_str;
