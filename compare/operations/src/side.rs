//! What ours and the Rust have in common here: operations, and types to run them on.

use reference::node::Node;

#[derive(Clone, Copy, Debug, PartialEq, Eq)]
pub enum Operation {
    UnwrapNamed,
    InternStored,
    InternNew,
    Compare,
    CountReachable,
    HasTypeVars,
    NeedsVarNormalization,
    ContainsBareTyvar,
    HasSharedTyvar,
    FreeTypeVars,
    StructurallyEq,
    Display,
    DisplayNix,
    Compact,
    /// Into a target without nodes, and into one that has the type.
    Import,
    ImportStored,
    NormalizeVars,
    NormalizeReplacingUnknown,
    NormalizeSetOps,
    Simplify,
    Fits,
}

use Operation::*;

pub const OPERATIONS: [(Operation, &str); 21] = [
    (UnwrapNamed, "unwrap_named"),
    (InternStored, "intern, a stored node"),
    (InternNew, "intern, a new node"),
    (Compare, "compare"),
    (CountReachable, "count_reachable"),
    (HasTypeVars, "has_type_vars"),
    (NeedsVarNormalization, "needs_var_normalization"),
    (ContainsBareTyvar, "contains_bare_tyvar"),
    (HasSharedTyvar, "has_shared_tyvar_across_lambda_params"),
    (FreeTypeVars, "free_type_vars"),
    (StructurallyEq, "structurally_eq"),
    (Display, "display"),
    (DisplayNix, "display_nix"),
    (Compact, "compact"),
    (Import, "import_from_arena"),
    (ImportStored, "import_from_arena, a stored type"),
    (NormalizeVars, "normalize_vars"),
    (NormalizeReplacingUnknown, "normalize_replacing_unknown"),
    (NormalizeSetOps, "normalize_set_ops"),
    (Simplify, "simplify"),
    (Fits, "fits"),
];

impl Operation {
    /// The node that a call of `intern` is given; in turn, all that are stored, in an order that leaps.
    pub fn node(self, nodes: &[Node], root: u32, turn: usize) -> Node {
        match self {
            InternNew => Node::List(root),
            _ => nodes[(turn * 7919 + 1) % nodes.len()].clone(),
        }
    }

    /// Whether it makes another type, or a copy.
    pub fn rewrites(self) -> bool {
        let renumbers = matches!(self, NormalizeVars | NormalizeReplacingUnknown);
        renumbers || matches!(self, Compact | Import | NormalizeSetOps | Simplify)
    }

    /// Whether the arena may be another afterwards.
    pub fn changes(self) -> bool {
        let interns = matches!(self, InternStored | InternNew);
        interns || self.rewrites() && !matches!(self, Compact | Import)
    }
}

/// What a call gave, to be compared: a yes or no, or an order, is a number.
#[derive(Debug, PartialEq)]
pub enum Answer {
    Number(u32),
    Numbers(Vec<u32>),
    Text(String),
    Copy(u32, Vec<Node>),
}

/// A type held by one of the two, on which an operation runs.
pub trait Side {
    type Made;

    /// Makes all ready for a call: the arena as it was at first, and the node for `intern`.
    fn prepare(&mut self, operation: Operation, turn: usize);

    /// What is measured.
    fn call(&mut self, operation: Operation) -> Self::Made;

    /// The answer and the nodes of the arena after a call.
    fn outcome(&self, operation: Operation, made: Self::Made) -> (Answer, Vec<Node>);
}
