use std::cmp::Ordering;
use std::collections::btree_map::Keys;
use std::collections::{BTreeMap, BTreeSet};
use std::fmt::Debug;

use smol_str::SmolStr;

use crate::{OutputTy, TyRef};

/// An attribute set whose fields have types of kind `R`.
#[derive(Debug, Default, Clone, PartialEq, Eq, Hash)]
pub struct AttrSetTy<R> {
    pub fields: BTreeMap<SmolStr, R>,
    /// The type of the fields that aren't listed.
    pub dyn_ty: Option<R>,
    /// Whether there may be more fields than those listed.
    pub open: bool,
    /// The names of the fields that may be left out.
    pub optional_fields: BTreeSet<SmolStr>,
}

impl<R> AttrSetTy<R> {
    /// The empty closed set.
    pub fn new() -> Self {
        AttrSetTy::from_fields(BTreeMap::new())
    }

    /// The closed set of these fields, none of them optional.
    pub fn from_fields(fields: BTreeMap<SmolStr, R>) -> Self {
        AttrSetTy {
            fields,
            dyn_ty: None,
            open: false,
            optional_fields: BTreeSet::new(),
        }
    }

    pub fn keys(&self) -> Keys<'_, SmolStr, R> {
        self.fields.keys()
    }

    pub fn get(&self, key: &SmolStr) -> Option<&R> {
        self.fields.get(key)
    }
}

impl<R: Clone + Debug> AttrSetTy<R> {
    /// Both sets in one. What both have is taken from `other`, and a field that `other` requires is required.
    pub fn merge(mut self, other: Self) -> Self {
        let required = |name: &SmolStr| {
            other.fields.contains_key(name) && !other.optional_fields.contains(name)
        };
        self.optional_fields.retain(|name| !required(name));
        self.optional_fields.extend(other.optional_fields);
        self.fields.extend(other.fields);
        self.dyn_ty = other.dyn_ty.or(self.dyn_ty);
        self.open |= other.open;
        self
    }
}

/// Two sets stand as the nodes that they make.
impl Ord for AttrSetTy<TyRef> {
    fn cmp(&self, other: &Self) -> Ordering {
        OutputTy::AttrSet(self.clone()).cmp(&OutputTy::AttrSet(other.clone()))
    }
}

impl PartialOrd for AttrSetTy<TyRef> {
    fn partial_cmp(&self, other: &Self) -> Option<Ordering> {
        Some(self.cmp(other))
    }
}

impl AttrSetTy<TyRef> {
    /// The set of these fields, none of them optional.
    pub fn from_internal<'a>(iter: impl IntoIterator<Item = (&'a str, TyRef)>, open: bool) -> Self {
        let fields = iter.into_iter().map(|(name, ty)| (SmolStr::from(name), ty));
        let closed = AttrSetTy::from_fields(fields.collect());
        AttrSetTy { open, ..closed }
    }
}
