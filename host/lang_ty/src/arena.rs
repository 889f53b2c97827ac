//! The nodes of types, each stored once, and what can be asked about them.

use std::fmt;
use std::ops::Index;

use la_arena::{Arena, Idx};
use rustc_hash::FxHashSet;

pub use crate::import::{import_from_arena, import_node_from_arena};
use crate::laid::Laid;
use crate::library::{Change, Question};
pub use crate::owned::OwnedTy;
use crate::refusal::Refused;
use crate::{truncated, AttrSetTy, DisplayConfig, OutputTy};

/// The number of a node in its arena. In another arena it names another node, or none.
pub type TyRef = Idx<OutputTy>;

/// The conversions say nothing where `la_arena` is the stand-in, whose raw numbers are plain ones.
#[allow(clippy::useless_conversion)]
pub(crate) fn number(ty: TyRef) -> u32 {
    u32::from(ty.into_raw())
}

pub(crate) fn numbered(number: u32) -> TyRef {
    TyRef::from_raw(u32::into(number))
}

/// The nodes of types, each stored once. They stand here as nodes, and beside that as the words that the library reads.
#[derive(Clone)]
pub struct TypeArena {
    pub(crate) nodes: Arena<OutputTy>,
    pub(crate) laid: Laid,
    /// What takes the place of `laid` once a node has come that can't be laid.
    #[cfg(feature = "outside-limits")]
    pub(crate) beyond: Option<Box<crate::answering::Beyond>>,
}

impl TypeArena {
    pub fn new() -> Self {
        TypeArena {
            nodes: Arena::new(),
            laid: Laid::default(),
            #[cfg(feature = "outside-limits")]
            beyond: None,
        }
    }

    /// The number of a node, which is added if it isn't there.
    pub fn intern(&mut self, node: OutputTy) -> TyRef {
        self.store(node)
    }

    pub fn get(&self, ty: TyRef) -> &OutputTy {
        &self.nodes[ty]
    }

    pub fn len(&self) -> usize {
        self.nodes.len()
    }

    pub fn is_empty(&self) -> bool {
        self.nodes.is_empty()
    }

    /// What prints the type.
    pub fn display(&self, ty: TyRef) -> TypeDisplay<'_> {
        TypeDisplay { arena: self, ty }
    }

    /// The text of the type within these limits.
    pub fn display_truncated(&self, ty: TyRef, config: &DisplayConfig) -> String {
        if config.is_unlimited() {
            return self.text(ty);
        }
        truncated::text(self, ty, config)
    }

    fn is(&self, question: Question, ty: TyRef) -> bool {
        self.ask(question, ty) == 1
    }

    /// Whether the type has a variable.
    pub fn has_type_vars(&self, ty: TyRef) -> bool {
        self.is(Question::HasTypeVars, ty)
    }

    /// Whether `normalize_replacing_unknown` has something to do.
    pub fn needs_var_normalization(&self, ty: TyRef) -> bool {
        self.is(Question::NeedsVarNormalization, ty)
    }

    /// Whether the type has a variable outside every lambda's param.
    pub fn contains_bare_tyvar(&self, ty: TyRef) -> bool {
        self.is(Question::ContainsBareTyvar, ty)
    }

    /// Whether two lambdas of the type have the same variable as their param.
    pub fn has_shared_tyvar_across_lambda_params(&self, ty: TyRef) -> bool {
        self.is(Question::HasSharedTyvar, ty)
    }

    /// The first node that is no name, from this one down.
    pub fn unwrap_named(&self, ty: TyRef) -> TyRef {
        numbered(self.ask(Question::UnwrapNamed, ty))
    }

    /// The variables of the type, in the order of a first visit.
    pub fn free_type_vars(&self, ty: TyRef) -> Vec<u32> {
        self.vars(ty)
    }

    /// The variables of a set that isn't stored itself, but whose parts are.
    pub fn free_type_vars_attrset(&self, attr: &AttrSetTy<TyRef>) -> Vec<u32> {
        let mut seen = FxHashSet::default();
        let parts = attr.fields.values().copied().chain(attr.dyn_ty);
        let vars = parts.flat_map(|ty| self.vars(ty));
        vars.filter(|&var| seen.insert(var)).collect()
    }

    /// The type with its variables numbered by first visit.
    pub fn normalize_vars(&mut self, ty: TyRef) -> TyRef {
        self.change(Change::Vars, ty)
    }

    /// The same, but a type that is a variable becomes the unknown one, which prints `?`.
    pub fn normalize_replacing_unknown(&mut self, ty: TyRef) -> TyRef {
        self.change(Change::ReplacingUnknown, ty)
    }

    /// The type with every union and intersection flat, sorted and without repeats.
    pub fn normalize_set_ops(&mut self, ty: TyRef) -> TyRef {
        self.change(Change::SetOps, ty)
    }

    /// The type alone, in a new arena.
    pub fn compact(&self, root: TyRef) -> (TypeArena, TyRef) {
        self.copied(root)
    }

    /// The number of a node, which is laid and added if it isn't there.
    pub(crate) fn lay(&mut self, node: OutputTy) -> Result<TyRef, (Refused, OutputTy)> {
        let count = self.laid.nodes();
        let child = |ty| Some(number(ty)).filter(|&at| at < count);
        match self.laid.place(&node, child) {
            Ok(at) if at == count => Ok(self.nodes.alloc(node)),
            Ok(at) => Ok(numbered(at)),
            Err(refused) => Err((refused, node)),
        }
    }

    /// What was answered, or the end.
    pub(crate) fn answered<T>(&self, answer: Result<T, Refused>, call: &str, ty: TyRef) -> T {
        answer.unwrap_or_else(|refused| {
            let at = number(ty);
            let node = ((at as usize) < self.len()).then(|| self.get(ty));
            refused.of_call(call, at, node)
        })
    }

    /// The arena of these nodes and no others.
    pub(crate) fn of(laid: &Laid) -> TypeArena {
        let mut arena = TypeArena::new();
        for at in 0..laid.nodes() {
            arena.intern(laid.node(at, numbered));
        }
        arena
    }

    /// Reads the nodes back that a call of the library has laid.
    pub(crate) fn take_in(&mut self) {
        for at in self.nodes.len() as u32..self.laid.nodes() {
            self.nodes.alloc(self.laid.node(at, numbered));
        }
    }
}

impl Default for TypeArena {
    fn default() -> Self {
        TypeArena::new()
    }
}

impl Index<TyRef> for TypeArena {
    type Output = OutputTy;

    fn index(&self, ty: TyRef) -> &OutputTy {
        self.get(ty)
    }
}

impl fmt::Debug for TypeArena {
    fn fmt(&self, f: &mut fmt::Formatter<'_>) -> fmt::Result {
        write!(f, "TypeArena({} entries)", self.len())
    }
}

/// Prints a type.
pub struct TypeDisplay<'a> {
    arena: &'a TypeArena,
    ty: TyRef,
}

impl fmt::Display for TypeDisplay<'_> {
    fn fmt(&self, f: &mut fmt::Formatter<'_>) -> fmt::Result {
        f.write_str(&self.arena.text(self.ty))
    }
}
