//! A node of a type, and how much of a type is printed.

use std::fmt;

use rustc_hash::FxHashMap;
use smol_str::SmolStr;

pub use crate::arena::TyRef;
use crate::{AttrSetTy, OwnedTy, PrimitiveTy};

/// A node: its kind, and the numbers of its children in the arena that it belongs to.
#[derive(Clone, PartialEq, Eq, Hash)]
pub enum OutputTy {
    TyVar(u32),
    Primitive(PrimitiveTy),
    List(TyRef),
    Lambda {
        param: TyRef,
        body: TyRef,
    },
    AttrSet(AttrSetTy<TyRef>),
    Union(Vec<TyRef>),
    Intersection(Vec<TyRef>),
    /// A name for the type beside it.
    Named(SmolStr, TyRef),
    Neg(TyRef),
    /// Prints `never`.
    Bottom,
    /// Prints `any`.
    Top,
    /// A type of another arena; it has no children in this one. The library doesn't have it.
    Extern(OwnedTy),
}

/// New numbers of variables by their old ones.
pub type Substitutions = FxHashMap<u32, u32>;

impl fmt::Debug for OutputTy {
    fn fmt(&self, f: &mut fmt::Formatter<'_>) -> fmt::Result {
        match self {
            OutputTy::TyVar(var) => write!(f, "TyVar({var:?})"),
            OutputTy::Primitive(primitive) => primitive.fmt(f),
            OutputTy::List(inner) => write!(f, "List({inner:?})"),
            OutputTy::Lambda { param, body } => write!(f, "Lambda({param:?} -> {body:?})"),
            OutputTy::AttrSet(attrs) => attrs.fmt(f),
            OutputTy::Union(members) => write!(f, "Union({members:?})"),
            OutputTy::Intersection(members) => write!(f, "Intersection({members:?})"),
            OutputTy::Named(name, inner) => write!(f, "Named({name:?}, {inner:?})"),
            OutputTy::Neg(inner) => write!(f, "Neg({inner:?})"),
            OutputTy::Bottom => f.write_str("Bottom"),
            OutputTy::Top => f.write_str("Top"),
            OutputTy::Extern(owned) => write!(f, "Extern({owned:?})"),
        }
    }
}

impl OutputTy {
    /// The children in the order in which they are visited.
    pub(crate) fn children(&self) -> impl Iterator<Item = TyRef> + '_ {
        let (first, second) = match self {
            OutputTy::List(inner) | OutputTy::Neg(inner) | OutputTy::Named(_, inner) => {
                (Some(*inner), None)
            }
            OutputTy::Lambda { param, body } => (Some(*param), Some(*body)),
            _ => (None, None),
        };
        let members: &[TyRef] = match self {
            OutputTy::Union(members) | OutputTy::Intersection(members) => members,
            _ => &[],
        };
        let attrs = match self {
            OutputTy::AttrSet(attrs) => Some(attrs),
            _ => None,
        };
        let attrs = attrs.into_iter();
        let in_set = attrs.flat_map(|attrs| attrs.fields.values().copied().chain(attrs.dyn_ty));
        let few = first.into_iter().chain(second);
        few.chain(members.iter().copied()).chain(in_set)
    }

    /// The same node with other children, each made of the one in its place, in the order of `children`.
    pub(crate) fn map_children(&self, f: &mut impl FnMut(TyRef) -> TyRef) -> OutputTy {
        match self {
            OutputTy::List(inner) => OutputTy::List(f(*inner)),
            OutputTy::Neg(inner) => OutputTy::Neg(f(*inner)),
            OutputTy::Named(name, inner) => OutputTy::Named(name.clone(), f(*inner)),
            OutputTy::Lambda { param, body } => {
                let param = f(*param);
                let body = f(*body);
                OutputTy::Lambda { param, body }
            }
            OutputTy::Union(list) => OutputTy::Union(list.iter().map(|&ty| f(ty)).collect()),
            OutputTy::Intersection(list) => {
                OutputTy::Intersection(list.iter().map(|&ty| f(ty)).collect())
            }
            OutputTy::AttrSet(attrs) => {
                let fields = attrs.fields.iter();
                OutputTy::AttrSet(AttrSetTy {
                    fields: fields.map(|(name, &ty)| (name.clone(), f(ty))).collect(),
                    dyn_ty: attrs.dyn_ty.map(f),
                    open: attrs.open,
                    optional_fields: attrs.optional_fields.clone(),
                })
            }
            _ => self.clone(),
        }
    }
}

/// How much of a type is printed before it is cut off; 0 is no limit.
#[derive(Debug, Clone, Copy)]
pub struct DisplayConfig {
    pub max_fields: usize,
    pub max_members: usize,
    pub max_depth: usize,
    pub max_chars: usize,
}

impl DisplayConfig {
    fn limits([max_fields, max_members, max_depth, max_chars]: [usize; 4]) -> Self {
        DisplayConfig {
            max_fields,
            max_members,
            max_depth,
            max_chars,
        }
    }

    pub fn full() -> Self {
        DisplayConfig::limits([0; 4])
    }

    pub fn cli() -> Self {
        DisplayConfig::limits([10, 8, 5, 2000])
    }

    pub fn hover() -> Self {
        DisplayConfig::limits([15, 8, 6, 4000])
    }

    pub fn inlay() -> Self {
        DisplayConfig::limits([3, 3, 2, 80])
    }

    pub fn completion() -> Self {
        DisplayConfig::limits([3, 3, 2, 120])
    }

    pub fn diagnostic() -> Self {
        DisplayConfig::limits([8, 5, 4, 500])
    }

    pub(crate) fn is_unlimited(&self) -> bool {
        let sizes = [self.max_fields, self.max_members];
        let bounds = [self.max_depth, self.max_chars];
        sizes == [0; 2] && bounds == [0; 2]
    }
}
