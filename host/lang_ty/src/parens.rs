//! Which kinds stand in parentheses, by where they stand.

use crate::OutputTy;
use OutputTy::{Intersection, Lambda, Union};

pub(crate) fn in_lambda_param(node: &OutputTy) -> bool {
    matches!(node, Lambda { .. } | Union(_) | Intersection(_))
}

pub(crate) fn in_union(node: &OutputTy) -> bool {
    matches!(node, Lambda { .. })
}

pub(crate) fn in_intersection(node: &OutputTy) -> bool {
    matches!(node, Lambda { .. } | Union(_))
}

pub(crate) fn in_neg(node: &OutputTy) -> bool {
    in_lambda_param(node)
}
