//! The nodes of a type, under the Rust's names. `Extern` is left out: a type here lives in one arena.

use std::collections::BTreeMap;
use std::fmt;

/// The number of a node in its arena. In another arena it names another node, or none.
#[derive(Debug, Clone, Copy, PartialEq, Eq, PartialOrd, Ord, Hash)]
pub struct TyRef(u32);

impl TyRef {
    pub fn from_raw(number: u32) -> TyRef {
        TyRef(number)
    }

    pub fn into_raw(self) -> u32 {
        self.0
    }
}

/// The primitive types, in the order of their codes.
#[derive(Debug, Clone, Copy, PartialEq, Eq, PartialOrd, Ord, Hash)]
pub enum PrimitiveTy {
    Null,
    Bool,
    Int,
    Float,
    String,
    Path,
    Uri,
    Number,
}

impl PrimitiveTy {
    pub const ALL: [PrimitiveTy; 8] = [
        PrimitiveTy::Null,
        PrimitiveTy::Bool,
        PrimitiveTy::Int,
        PrimitiveTy::Float,
        PrimitiveTy::String,
        PrimitiveTy::Path,
        PrimitiveTy::Uri,
        PrimitiveTy::Number,
    ];

    /// `number` stands for `int` and `float`.
    const NUMBERS: [PrimitiveTy; 3] = [PrimitiveTy::Int, PrimitiveTy::Float, PrimitiveTy::Number];

    pub fn is_number(&self) -> bool {
        PrimitiveTy::NUMBERS.contains(self)
    }

    pub fn is_float(&self) -> bool {
        *self == PrimitiveTy::Float
    }

    /// Whether `+` takes it.
    pub fn is_addable(&self) -> bool {
        self.is_number() || [PrimitiveTy::String, PrimitiveTy::Path].contains(self)
    }

    /// Whether it is a part of the other, and not the other itself.
    pub fn is_subtype_of(&self, other: &PrimitiveTy) -> bool {
        *other == PrimitiveTy::Number && self.is_number() && self != other
    }

    pub fn text(self) -> &'static str {
        const TEXTS: [&str; 8] = [
            "null", "bool", "int", "float", "string", "path", "uri", "number",
        ];
        TEXTS[self as usize]
    }
}

impl fmt::Display for PrimitiveTy {
    fn fmt(&self, f: &mut fmt::Formatter<'_>) -> fmt::Result {
        f.write_str(self.text())
    }
}

/// The type of a field, and whether the field may be left out.
#[derive(Debug, Clone, Copy, PartialEq, Eq, Hash)]
pub struct Field {
    pub ty: TyRef,
    pub optional: bool,
}

impl Field {
    pub fn required(ty: TyRef) -> Field {
        Field {
            ty,
            optional: false,
        }
    }

    pub fn optional(ty: TyRef) -> Field {
        Field { ty, optional: true }
    }
}

/// An attribute set. The mark of an optional field stands with the field, so that no other name can have one.
#[derive(Debug, Clone, Default, PartialEq, Eq, Hash)]
pub struct AttrSetTy {
    pub fields: BTreeMap<String, Field>,
    /// The type of the fields that aren't listed.
    pub dyn_ty: Option<TyRef>,
    pub open: bool,
}

impl AttrSetTy {
    /// The empty closed set.
    pub fn new() -> AttrSetTy {
        AttrSetTy::default()
    }

    /// A set of required fields.
    pub fn from_internal<'a>(
        fields: impl IntoIterator<Item = (&'a str, TyRef)>,
        open: bool,
    ) -> AttrSetTy {
        let fields = fields.into_iter();
        let fields = fields.map(|(name, ty)| (name.to_string(), Field::required(ty)));
        AttrSetTy {
            fields: fields.collect(),
            dyn_ty: None,
            open,
        }
    }
}

/// A node: one of the eleven kinds, with the numbers of its children.
#[derive(Debug, Clone, PartialEq, Eq, Hash)]
pub enum OutputTy {
    TyVar(u32),
    Primitive(PrimitiveTy),
    List(TyRef),
    Lambda { param: TyRef, body: TyRef },
    AttrSet(AttrSetTy),
    Union(Vec<TyRef>),
    Intersection(Vec<TyRef>),
    Named(String, TyRef),
    Neg(TyRef),
    Bottom,
    Top,
}
