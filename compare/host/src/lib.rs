//! The crate `coombtray` and the unchanged Rust, given the same nodes through their own APIs.

pub mod both;
pub mod random;
