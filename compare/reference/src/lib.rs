//! What our programs must answer. Where the Rust has an answer it is the unchanged Rust's; what the Rust
//! has no word for (the refusals, the lent memory, the passes made) is written here from document 01.

pub mod answer;
pub mod calls;
pub mod case;
pub mod deep;
pub mod fix;
pub mod layout;
pub mod limited;
pub mod memory;
pub mod node;
pub mod order;
pub mod places;
#[path = "../../client/src/primitives.rs"]
mod primitives;
pub mod rust;
pub mod second;
pub mod set_ops;
pub mod sheet;
pub mod simplify;
pub mod spelling;
pub mod table;

/// A value, or the number of the refusal.
pub type Reply<T> = Result<T, u8>;

/// Most words and most nodes of an arena, and most bytes of a text or a sheet.
pub const WORDS: usize = 16_384;
pub const NODES: usize = 4_096;
pub const TEXT: usize = 65_536;

/// Most members of a list and most fields of a set.
pub const MEMBERS: usize = 64;
