use std::fmt;
use std::hash::Hash;

use smol_str::SmolStr;

use crate::{AttrSetTy, OwnedTy, PrimitiveTy};

/// What a child of a [`Ty`] must be.
pub trait RefType: Eq + Hash {}

impl<T: Eq + Hash> RefType for T {}

/// A type during inference. Its lists have two members each; longer ones nest.
#[derive(Clone, PartialEq, Eq, Hash)]
pub enum Ty<R, VarType = u32>
where
    R: RefType,
{
    TyVar(VarType),
    Primitive(PrimitiveTy),
    List(R),
    Lambda {
        param: R,
        body: R,
    },
    AttrSet(AttrSetTy<R>),
    Neg(R),
    Inter(R, R),
    Union(R, R),
    /// A name for the type beside it.
    Named(SmolStr, R),
    /// A type of another file, in that file's arena.
    Frozen(OwnedTy),
}

impl<R: RefType + fmt::Debug, VarType: fmt::Debug> fmt::Debug for Ty<R, VarType> {
    fn fmt(&self, f: &mut fmt::Formatter<'_>) -> fmt::Result {
        match self {
            Ty::TyVar(var) => write!(f, "TyVar({var:?})"),
            Ty::Primitive(primitive) => primitive.fmt(f),
            Ty::List(inner) => write!(f, "List({inner:?})"),
            Ty::Lambda { param, body } => write!(f, "Lambda({param:?} -> {body:?})"),
            Ty::AttrSet(attrs) => attrs.fmt(f),
            Ty::Neg(inner) => write!(f, "Neg({inner:?})"),
            Ty::Inter(left, right) => write!(f, "Inter({left:?}, {right:?})"),
            Ty::Union(left, right) => write!(f, "Union({left:?}, {right:?})"),
            Ty::Named(name, inner) => write!(f, "Named({name:?}, {inner:?})"),
            Ty::Frozen(owned) => write!(f, "Frozen({owned:?})"),
        }
    }
}

impl<T: RefType> From<PrimitiveTy> for Ty<T> {
    fn from(primitive: PrimitiveTy) -> Self {
        Ty::Primitive(primitive)
    }
}
