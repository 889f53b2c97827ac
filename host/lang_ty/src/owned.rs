use std::cmp::Ordering;
use std::fmt;
use std::hash::{Hash, Hasher};
use std::sync::Arc;

use crate::{DisplayConfig, OutputTy, TyRef, TypeArena};

/// A type with the arena that it lives in. Two are equal if the arena is the same one, not a copy, and the root too;
/// `structurally_eq` compares the types.
#[derive(Clone)]
pub struct OwnedTy {
    pub arena: Arc<TypeArena>,
    pub root: TyRef,
}

impl OwnedTy {
    pub fn new(arena: Arc<TypeArena>, root: TyRef) -> Self {
        OwnedTy { arena, root }
    }

    /// The root's node.
    pub fn get(&self) -> &OutputTy {
        self.arena.get(self.root)
    }

    /// The type alone, in an arena of its own.
    pub fn compact(&self) -> OwnedTy {
        let (arena, root) = self.arena.compact(self.root);
        OwnedTy::new(Arc::new(arena), root)
    }

    pub fn display_truncated(&self, config: &DisplayConfig) -> String {
        self.arena.display_truncated(self.root, config)
    }

    /// Whether two types are equal as trees, names by their text.
    pub fn structurally_eq(&self, other: &Self) -> bool {
        self == other || self.arena.equal(self.root, &other.arena, other.root)
    }

    /// Where the arena lies, and the root.
    fn identity(&self) -> (usize, TyRef) {
        (Arc::as_ptr(&self.arena) as usize, self.root)
    }
}

impl PartialEq for OwnedTy {
    fn eq(&self, other: &Self) -> bool {
        self.identity() == other.identity()
    }
}

impl Eq for OwnedTy {}

impl Hash for OwnedTy {
    fn hash<H: Hasher>(&self, state: &mut H) {
        self.identity().hash(state);
    }
}

impl Ord for OwnedTy {
    fn cmp(&self, other: &Self) -> Ordering {
        self.identity().cmp(&other.identity())
    }
}

impl PartialOrd for OwnedTy {
    fn partial_cmp(&self, other: &Self) -> Option<Ordering> {
        Some(self.cmp(other))
    }
}

impl fmt::Debug for OwnedTy {
    fn fmt(&self, f: &mut fmt::Formatter<'_>) -> fmt::Result {
        write!(f, "OwnedTy({:?})", self.root)
    }
}

impl fmt::Display for OwnedTy {
    fn fmt(&self, f: &mut fmt::Formatter<'_>) -> fmt::Result {
        self.arena.display(self.root).fmt(f)
    }
}
