//! Stand-in for `la_arena`: a vector, and an index that remembers what it points into.
//! `from_raw` and `into_raw` take a plain `u32` here.

use std::cmp::Ordering;
use std::fmt;
use std::hash::{Hash, Hasher};
use std::marker::PhantomData;
use std::ops::Index;

pub struct Idx<T> {
    raw: u32,
    of: PhantomData<fn() -> T>,
}

impl<T> Idx<T> {
    pub fn from_raw(raw: u32) -> Self {
        let of = PhantomData;
        Idx { raw, of }
    }

    pub fn into_raw(self) -> u32 {
        self.raw
    }
}

// Written out, since a derive would ask the same of `T`.
impl<T> Clone for Idx<T> {
    fn clone(&self) -> Self {
        *self
    }
}

impl<T> Copy for Idx<T> {}

impl<T> PartialEq for Idx<T> {
    fn eq(&self, other: &Self) -> bool {
        self.raw == other.raw
    }
}

impl<T> Eq for Idx<T> {}

impl<T> PartialOrd for Idx<T> {
    fn partial_cmp(&self, other: &Self) -> Option<Ordering> {
        Some(self.cmp(other))
    }
}

impl<T> Ord for Idx<T> {
    fn cmp(&self, other: &Self) -> Ordering {
        self.raw.cmp(&other.raw)
    }
}

impl<T> Hash for Idx<T> {
    fn hash<H: Hasher>(&self, state: &mut H) {
        self.raw.hash(state)
    }
}

impl<T> fmt::Debug for Idx<T> {
    fn fmt(&self, f: &mut fmt::Formatter<'_>) -> fmt::Result {
        let path = std::any::type_name::<T>();
        let name = path.rsplit(':').next().unwrap_or(path);
        write!(f, "Idx::<{name}>({})", self.raw)
    }
}

#[derive(Clone)]
pub struct Arena<T>(Vec<T>);

impl<T> Arena<T> {
    #[allow(clippy::new_without_default)]
    pub fn new() -> Self {
        Arena(Vec::new())
    }

    pub fn alloc(&mut self, value: T) -> Idx<T> {
        self.0.push(value);
        Idx::from_raw(self.0.len() as u32 - 1)
    }

    pub fn len(&self) -> usize {
        self.0.len()
    }

    pub fn is_empty(&self) -> bool {
        self.0.is_empty()
    }
}

impl<T> Index<Idx<T>> for Arena<T> {
    type Output = T;

    fn index(&self, at: Idx<T>) -> &T {
        &self.0[at.raw as usize]
    }
}
