use std::fmt;

/// The primitive types, in the order of the library's codes.
#[derive(Debug, Clone, Copy, PartialEq, Eq, Hash, PartialOrd, Ord)]
pub enum PrimitiveTy {
    Null,
    Bool,
    Int,
    Float,
    String,
    Path,
    Uri,
    /// Stands for `Int` and `Float`.
    Number,
}

use PrimitiveTy::{Bool, Float, Int, Null, Number, Path, String, Uri};

impl PrimitiveTy {
    pub(crate) const BY_CODE: [PrimitiveTy; 8] =
        [Null, Bool, Int, Float, String, Path, Uri, Number];

    pub fn is_number(&self) -> bool {
        *self == Number || self.is_subtype_of(&Number)
    }

    pub fn is_float(&self) -> bool {
        *self == Float
    }

    /// Whether `+` takes it.
    pub fn is_addable(&self) -> bool {
        self.is_number() || [String, Path].contains(self)
    }

    /// Whether it is a part of the other, and not the other itself.
    pub fn is_subtype_of(&self, other: &PrimitiveTy) -> bool {
        *other == Number && [Int, Float].contains(self)
    }
}

impl fmt::Display for PrimitiveTy {
    fn fmt(&self, f: &mut fmt::Formatter<'_>) -> fmt::Result {
        f.write_str(match self {
            Null => "null",
            Bool => "bool",
            Int => "int",
            Float => "float",
            String => "string",
            Path => "path",
            Uri => "uri",
            Number => "number",
        })
    }
}
