//! The unchanged Rust.

use std::sync::Arc;

use lang_ty::{import_from_arena, simplify, OutputTy, OwnedTy, TyRef, TypeArena};
use reference::fix::{self, Value};
use reference::node::Node;
use reference::rust::Rust;

use crate::side::{Answer, Operation, Side};

pub struct Theirs {
    given: Vec<Node>,
    first: Rust,
    /// A clone of the first, made anew where a call may change it.
    rust: Rust,
    /// Where a type is imported that is stored already.
    twin: Rust,
    root: u32,
    node: OutputTy,
    left: OwnedTy,
    right: OwnedTy,
    values: Vec<Value>,
}

/// What a call made; it is taken down after the measured part.
pub enum Made {
    Number(u32),
    Numbers(Vec<u32>),
    Text(String),
    Copy(TypeArena, TyRef),
}

impl Theirs {
    pub fn holding(nodes: &[Node], names: &[String], root: u32, fix: &[u32]) -> Theirs {
        let first = Rust::holding(nodes, names);
        let owned = || OwnedTy::new(Arc::new(first.arena.clone()), TyRef::from_raw(root));
        Theirs {
            given: nodes.to_vec(),
            root,
            node: OutputTy::Top,
            left: owned(),
            right: owned(),
            values: fix::decode(fix, names.len()).unwrap_or_default(),
            rust: first.clone(),
            twin: first.clone(),
            first,
        }
    }
}

/// Into an arena without nodes, or into one into which it was imported before.
fn import(theirs: &mut Theirs, operation: Operation) -> Made {
    let (source, root) = (&theirs.rust.arena, TyRef::from_raw(theirs.root));
    let mut met = Default::default();
    if operation == Operation::ImportStored {
        let target = &mut theirs.twin.arena;
        return Made::Number(import_from_arena(target, source, root, &mut met).into_raw());
    }
    let mut target = TypeArena::new();
    let root = import_from_arena(&mut target, source, root, &mut met);
    Made::Copy(target, root)
}

#[no_mangle]
#[inline(never)]
fn rust_measured(theirs: &mut Theirs, operation: Operation) -> Made {
    let arena = &mut theirs.rust.arena;
    let root = TyRef::from_raw(theirs.root);
    let number = |ty: TyRef| Made::Number(ty.into_raw());
    let is = |so: bool| Made::Number(so.into());
    match operation {
        Operation::UnwrapNamed => number(arena.unwrap_named(root)),
        Operation::InternStored | Operation::InternNew => {
            let node = std::mem::replace(&mut theirs.node, OutputTy::Top);
            number(arena.intern(node))
        }
        Operation::Compare => Made::Number((arena[root].cmp(&arena[root]) as i32 + 1) as u32),
        Operation::CountReachable => Made::Number(arena.compact(root).0.len() as u32),
        Operation::HasTypeVars => is(arena.has_type_vars(root)),
        Operation::NeedsVarNormalization => is(arena.needs_var_normalization(root)),
        Operation::ContainsBareTyvar => is(arena.contains_bare_tyvar(root)),
        Operation::HasSharedTyvar => is(arena.has_shared_tyvar_across_lambda_params(root)),
        Operation::FreeTypeVars => Made::Numbers(arena.free_type_vars(root)),
        Operation::StructurallyEq => is(theirs.left.structurally_eq(&theirs.right)),
        // No name of these types needs quotes, so both texts are the Rust's.
        Operation::Display | Operation::DisplayNix => Made::Text(arena.display(root).to_string()),
        Operation::Compact => {
            let (copy, root) = arena.compact(root);
            Made::Copy(copy, root)
        }
        Operation::Import | Operation::ImportStored => import(theirs, operation),
        Operation::NormalizeVars => number(arena.normalize_vars(root)),
        Operation::NormalizeReplacingUnknown => number(arena.normalize_replacing_unknown(root)),
        Operation::NormalizeSetOps => number(arena.normalize_set_ops(root)),
        Operation::Simplify => number(simplify::simplify(arena, root)),
        // Not the Rust's, so the reference's.
        Operation::Fits => is(fix::fits(&theirs.given, theirs.root, &theirs.values)),
    }
}

impl Side for Theirs {
    type Made = Made;

    fn prepare(&mut self, operation: Operation, turn: usize) {
        if operation.changes() || self.rust.arena.len() > self.given.len() {
            self.rust = self.first.clone();
        }
        if operation == Operation::ImportStored {
            self.twin.arena = TypeArena::new();
            import(self, operation);
        }
        let node = operation.node(&self.given, self.root, turn);
        self.node = self.first.put(&node);
    }

    fn call(&mut self, operation: Operation) -> Made {
        rust_measured(self, operation)
    }

    fn outcome(&self, operation: Operation, made: Made) -> (Answer, Vec<Node>) {
        let answer = match made {
            Made::Number(number) if operation == Operation::ImportStored => {
                Answer::Copy(number, self.twin.nodes())
            }
            Made::Number(number) => Answer::Number(number),
            Made::Numbers(numbers) => Answer::Numbers(numbers),
            Made::Text(text) => Answer::Text(text),
            Made::Copy(arena, root) => {
                let mut copy = self.first.clone();
                copy.arena = arena;
                Answer::Copy(root.into_raw(), copy.nodes())
            }
        };
        (answer, self.rust.nodes())
    }
}
