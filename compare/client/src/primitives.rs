//! All of them, in their order.

use lang_ty::PrimitiveTy;

pub const PRIMITIVES: [PrimitiveTy; 8] = [
    PrimitiveTy::Null,
    PrimitiveTy::Bool,
    PrimitiveTy::Int,
    PrimitiveTy::Float,
    PrimitiveTy::String,
    PrimitiveTy::Path,
    PrimitiveTy::Uri,
    PrimitiveTy::Number,
];
