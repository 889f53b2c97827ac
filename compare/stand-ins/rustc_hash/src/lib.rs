//! Stand-in for `rustc_hash`: the standard tables with a hasher that has no random seed and is quick, so that the Rust
//! isn't slowed by it where it is measured.

use std::collections::{HashMap, HashSet};
use std::hash::{BuildHasherDefault, Hasher};

/// A word is turned in and multiplied by an odd number whose bits are mixed.
#[derive(Default)]
pub struct Mixing(u64);

impl Hasher for Mixing {
    fn write(&mut self, bytes: &[u8]) {
        for part in bytes.chunks(8) {
            let mut word = [0; 8];
            word[..part.len()].copy_from_slice(part);
            self.write_u64(u64::from_le_bytes(word));
        }
    }

    fn write_u8(&mut self, word: u8) {
        self.write_u64(word.into());
    }

    fn write_u32(&mut self, word: u32) {
        self.write_u64(word.into());
    }

    fn write_u64(&mut self, word: u64) {
        self.0 = (self.0.rotate_left(7) ^ word).wrapping_mul(0x9e37_79b9_7f4a_7c15);
    }

    fn write_usize(&mut self, word: usize) {
        self.write_u64(word as u64);
    }

    /// Tables use the lowest bits, which a product mixes least.
    fn finish(&self) -> u64 {
        self.0.rotate_left(32)
    }
}

pub type FxHashMap<K, V> = HashMap<K, V, BuildHasherDefault<Mixing>>;
pub type FxHashSet<T> = HashSet<T, BuildHasherDefault<Mixing>>;
