//! The crate, and below it the static library as it is linked. The random types beside the unchanged Rust are in
//! compare/host.

mod build;
mod converting;
mod deep;
mod finding;
mod fitting;
mod fitting_by_hand;
mod growth;
mod header;
mod importing;
mod importing_by_hand;
mod misuse;
mod names;
mod random;
mod raw;
mod refusals;
mod threads;
mod worked;
