//! The type arena of `lang_ty`, under its own names, over the proved static library. docs/HOST.md says who can cause
//! which refusal, what memory is after each call, and which stack a call needs.
//!
//! ```
//! use coombtray::{Names, OutputTy, PrimitiveTy, TypeArena};
//!
//! let mut arena = TypeArena::new(Names::new(["roll angle"])?);
//! let var = arena.intern(OutputTy::TyVar(0))?;
//! let float = arena.intern(OutputTy::Primitive(PrimitiveTy::Float))?;
//! let either = arena.intern(OutputTy::Union(vec![var, float]))?;
//! let simplified = arena.simplify(either)?;
//! assert_eq!(arena.display(simplified.root)?, "float");
//! let roll = arena.intern(OutputTy::Named("roll angle".into(), simplified.root))?;
//! assert_eq!(arena.display(roll)?, "roll angle");
//! assert_eq!(arena.display_nix(roll)?, "\"roll angle\"");
//! # Ok::<(), coombtray::Refusal>(())
//! ```
//!
//! This crate isn't proved. It owns the memory, writes nodes and values as words, reads nodes back, and has the questions of
//! [`PrimitiveTy`]; every other answer is the library's.

#![deny(unsafe_op_in_unsafe_fn)]

mod arena;
pub mod ffi;
pub mod layout;
mod memory;
mod names;
mod refusal;
mod stack;
mod texts;
mod types;
mod value;
mod words;

pub use arena::{import_from_arena, Simplified, TypeArena};
pub use names::Names;
pub use refusal::Refusal;
pub use stack::{on_large_stack, STACK};
pub use texts::{compare_names, convert_sheet, sheet_line, tyvar_name};
pub use types::{AttrSetTy, Field, OutputTy, PrimitiveTy, TyRef};
pub use value::Value;
