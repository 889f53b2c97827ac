//! Stand-in for `derive_more`: the name `Debug`, as the real one has it, both the trait and a derive
//! that knows the attribute `debug`. The derive beside the glob wins over the standard one.

mod standard {
    pub use std::fmt::Debug;
}

pub use derive_more_macro::Debug;
pub use standard::*;
