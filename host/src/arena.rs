use std::cmp::Ordering;
use std::fmt;

use crate::ffi;
use crate::memory::{Change, Memory, Question, Writing};
use crate::words::{self, Known};
use crate::{value, Names, OutputTy, Refusal, TyRef, Value};

/// The nodes of types, each stored once, under the names of one table.
///
/// A refusal leaves the arena as it was. Each call judges the whole arena first, which takes longer the more nodes there
/// are; so little is lent for few nodes, and more when a call needs it. Its recursion goes as deep as the type: see
/// [`crate::on_large_stack`].
///
/// Two arenas are equal if they have the same names and the same nodes under the same numbers, whatever is lent and
/// however far each may grow.
#[derive(Clone)]
pub struct TypeArena {
    memory: Memory,
    /// Of the names in memory. It goes with them.
    known: Known,
}

impl PartialEq for TypeArena {
    fn eq(&self, other: &TypeArena) -> bool {
        self.memory == other.memory
    }
}

impl Eq for TypeArena {}

/// What `simplify` gives: the root of the simplified type, and how many passes were made.
#[derive(Debug, Clone, Copy, PartialEq, Eq)]
pub struct Simplified {
    pub root: TyRef,
    pub passes: u32,
}

impl TypeArena {
    /// An empty arena that may grow to the full size: 4,096 nodes in 16,384 words.
    pub fn new(names: Names) -> TypeArena {
        let full = TypeArena::with_capacity(names, ffi::WORDS, ffi::STARTS);
        full.expect("the full size is allowed")
    }

    /// An empty arena that may grow to so many words and nodes; 2 if they are over the full size.
    pub fn with_capacity(names: Names, words: usize, nodes: usize) -> Result<TypeArena, Refusal> {
        let memory = Memory::new(names, (words, nodes))?;
        let known = Known::default();
        Ok(TypeArena { memory, known })
    }

    /// An arena as `new` makes it that holds these nodes, which get the numbers 0, 1, and so on. They are judged once, so that
    /// many nodes are stored quicker than by `intern`. 2: a node repeats, or a child's number isn't below its own; 3, 4
    /// and 7 as for `intern`.
    pub fn from_nodes(
        names: Names,
        nodes: impl IntoIterator<Item = OutputTy>,
    ) -> Result<TypeArena, Refusal> {
        let mut arena = TypeArena::new(names);
        arena.lay(nodes)?;
        Ok(arena)
    }

    /// Puts these nodes after the last; a refusal leaves some of them there.
    fn lay(&mut self, nodes: impl IntoIterator<Item = OutputTy>) -> Result<(), Refusal> {
        for node in nodes {
            let words = words::encode(&self.memory.names, &mut self.known, &node)?;
            self.memory.growing(|memory| memory.lay(&words))?;
        }
        self.memory.sound()
    }

    pub fn names(&self) -> &Names {
        &self.memory.names
    }

    pub fn len(&self) -> usize {
        self.memory.nodes()
    }

    pub fn is_empty(&self) -> bool {
        self.len() == 0
    }

    /// How many words and starts the library is lent at each call, used or not. It grows with the nodes, and says nothing
    /// about what fits: it is no part of an answer.
    pub fn lent(&self) -> (usize, usize) {
        self.memory.lent()
    }

    /// The number of a node, which is added if it isn't there. 3: no member, or over 64 members or fields; 4: a child
    /// that isn't there, or a name that isn't in the table; 7: no room.
    pub fn intern(&mut self, node: OutputTy) -> Result<TyRef, Refusal> {
        let words = words::encode(&self.memory.names, &mut self.known, &node)?;
        let number = self.memory.growing(|memory| memory.intern(&words));
        number.map(TyRef::from_raw)
    }

    /// The node of a number; 6 if it isn't there.
    pub fn get(&self, ty: TyRef) -> Result<OutputTy, Refusal> {
        let words = self.memory.node(ty.into_raw()).ok_or(Refusal::ROOT)?;
        Ok(words::decode(&self.memory.names, words))
    }

    /// The words of all nodes, as they stand in a sheet.
    pub fn words(&self) -> &[u32] {
        self.memory.words()
    }

    /// All nodes, in the order of their numbers.
    pub fn nodes(&self) -> impl Iterator<Item = OutputTy> + '_ {
        let words = (0..self.len() as u32).filter_map(|number| self.memory.node(number));
        words.map(|words| words::decode(&self.memory.names, words))
    }

    /// Lets nodes use more names; all nodes keep their numbers. 1 as for [`Names::new`].
    pub fn add_names<T: AsRef<str>>(
        &mut self,
        more: impl IntoIterator<Item = T>,
    ) -> Result<(), Refusal> {
        let mut names: Vec<String> = self.names().iter().map(str::to_string).collect();
        names.extend(more.into_iter().map(|name| name.as_ref().to_string()));
        let (words, nodes) = self.memory.limit();
        let mut grown = TypeArena::with_capacity(Names::new(names)?, words, nodes)?;
        grown.lay(self.nodes())?;
        *self = grown;
        Ok(())
    }

    /// What the type of the root becomes, by the passes of document 01; 6, 7, 8.
    pub fn simplify(&mut self, ty: TyRef) -> Result<Simplified, Refusal> {
        let made = self.memory.growing(|memory| memory.simplify(ty.into_raw()));
        let (root, passes) = made?;
        let root = TyRef::from_raw(root);
        Ok(Simplified { root, passes })
    }

    fn change(&mut self, change: Change, ty: TyRef) -> Result<TyRef, Refusal> {
        let changed = |memory: &mut Memory| memory.change(change, ty.into_raw());
        let root = self.memory.growing(changed);
        root.map(TyRef::from_raw)
    }

    /// The type with its variables numbered by first visit; 6, 7.
    pub fn normalize_vars(&mut self, ty: TyRef) -> Result<TyRef, Refusal> {
        self.change(Change::Vars, ty)
    }

    /// The same, but a root that is a variable becomes the unknown one, which prints `?`; 6, 7.
    pub fn normalize_replacing_unknown(&mut self, ty: TyRef) -> Result<TyRef, Refusal> {
        self.change(Change::ReplacingUnknown, ty)
    }

    /// The type with every union and intersection flat, sorted and without repeats; 6, 7, 8.
    pub fn normalize_set_ops(&mut self, ty: TyRef) -> Result<TyRef, Refusal> {
        self.change(Change::SetOps, ty)
    }

    /// The type alone, in a new arena that may grow as far and has the same names; 6.
    pub fn compact(&self, root: TyRef) -> Result<(TypeArena, TyRef), Refusal> {
        let (words, nodes) = self.memory.limit();
        let mut target = TypeArena::with_capacity(self.names().clone(), words, nodes)?;
        let root = self.compact_into(root, &mut target)?;
        Ok((target, root))
    }

    /// The same, into a target: what it held is gone, and its names are this arena's. 6 leaves the target as it was; 7
    /// leaves it empty, with its own names.
    pub fn compact_into(&self, root: TyRef, target: &mut TypeArena) -> Result<TyRef, Refusal> {
        let copied = self.memory.compact(root.into_raw(), &mut target.memory)?;
        target.memory.names.clone_from(&self.memory.names);
        target.known.clone_from(&self.known);
        Ok(TyRef::from_raw(copied))
    }

    fn ask(&self, question: Question, ty: TyRef) -> Result<u32, Refusal> {
        self.memory.ask(question, ty.into_raw())
    }

    /// How many nodes the type has; 6.
    pub fn count_reachable(&self, ty: TyRef) -> Result<u32, Refusal> {
        self.ask(Question::CountReachable, ty)
    }

    /// The first node that is no name, from the root down; 6.
    pub fn unwrap_named(&self, ty: TyRef) -> Result<TyRef, Refusal> {
        let inner = self.ask(Question::UnwrapNamed, ty);
        inner.map(TyRef::from_raw)
    }

    /// Whether the type has a variable; 6.
    pub fn has_type_vars(&self, ty: TyRef) -> Result<bool, Refusal> {
        Ok(self.ask(Question::HasTypeVars, ty)? == 1)
    }

    /// Whether `normalize_replacing_unknown` has something to do; 6.
    pub fn needs_var_normalization(&self, ty: TyRef) -> Result<bool, Refusal> {
        Ok(self.ask(Question::NeedsVarNormalization, ty)? == 1)
    }

    /// Whether the type has a variable outside every lambda's param; 6.
    pub fn contains_bare_tyvar(&self, ty: TyRef) -> Result<bool, Refusal> {
        Ok(self.ask(Question::ContainsBareTyvar, ty)? == 1)
    }

    /// Whether two lambdas of the type have the same variable as their param; 6.
    pub fn has_shared_tyvar_across_lambda_params(&self, ty: TyRef) -> Result<bool, Refusal> {
        Ok(self.ask(Question::HasSharedTyvar, ty)? == 1)
    }

    /// The variables of the type, in the order of a first visit; 6.
    pub fn free_type_vars(&self, ty: TyRef) -> Result<Vec<u32>, Refusal> {
        self.memory.free_type_vars(ty.into_raw())
    }

    /// How two nodes stand in node order; 6.
    pub fn compare(&self, left: TyRef, right: TyRef) -> Result<Ordering, Refusal> {
        let order = self.memory.compare(left.into_raw(), right.into_raw());
        order.map(order_of)
    }

    /// Whether two types are equal as trees, names by their text; 6.
    pub fn structurally_eq(
        &self,
        ty: TyRef,
        other: &TypeArena,
        other_ty: TyRef,
    ) -> Result<bool, Refusal> {
        let (root, other_root) = (ty.into_raw(), other_ty.into_raw());
        self.memory.structurally_eq(root, &other.memory, other_root)
    }

    /// Whether a fix fits the type; docs/HOST.md says what fits. 6; 13: the fix has over 1,024 values, itself and all that are
    /// within it, or a field whose name isn't in the arena's table; 14: the type has a variable.
    ///
    /// ```
    /// use coombtray::{AttrSetTy, Names, OutputTy, PrimitiveTy, TypeArena, Value};
    ///
    /// let mut arena = TypeArena::new(Names::new(["roll"])?);
    /// let number = arena.intern(OutputTy::Primitive(PrimitiveTy::Number))?;
    /// let attrs = AttrSetTy::from_internal([("roll", number)], false);
    /// let ty = arena.intern(OutputTy::AttrSet(attrs))?;
    /// let fix = |roll| Value::Set([("roll".to_string(), roll)].into());
    /// assert_eq!(arena.fits(ty, &fix(Value::Float(0.25))), Ok(true));
    /// assert_eq!(arena.fits(ty, &fix(Value::Null)), Ok(false));
    /// # Ok::<(), coombtray::Refusal>(())
    /// ```
    pub fn fits(&self, ty: TyRef, fix: &Value) -> Result<bool, Refusal> {
        // A fix that can't be written is lent as no words, which the library refuses by 13 in its place, after 6.
        let words = value::encode(self.names(), &self.known, fix).unwrap_or_default();
        self.memory.fits(ty.into_raw(), &words)
    }

    fn text(&self, writing: Writing, ty: TyRef) -> Result<String, Refusal> {
        let mut text = vec![0; ffi::TEXT];
        let written = self.text_into(writing, ty, &mut text);
        written.map(str::to_string)
    }

    fn text_into<'a>(
        &self,
        writing: Writing,
        ty: TyRef,
        text: &'a mut [u8],
    ) -> Result<&'a str, Refusal> {
        let length = self.memory.write(writing, ty.into_raw(), text)?;
        Ok(std::str::from_utf8(&text[..length]).expect("a text has bytes 32 to 126"))
    }

    /// The text of the type, with names as they are; 6, and 9 if it is over 65,536 bytes.
    pub fn display(&self, ty: TyRef) -> Result<String, Refusal> {
        self.text(Writing::Display, ty)
    }

    /// The text at the front of lent bytes; the bytes past it stay. 6 leaves all of them; 9 sets all to 0.
    pub fn display_into<'a>(&self, ty: TyRef, text: &'a mut [u8]) -> Result<&'a str, Refusal> {
        self.text_into(Writing::Display, ty, text)
    }

    /// The text of the type, with names as the Nix manual writes them; 6, and 9 if it is over 65,536 bytes.
    ///
    /// A name stands in quotes unless it is a letter or `_`, then letters, digits, `_`, `'` or `-`, and none of assert,
    /// else, if, in, inherit, let, or, rec, then, with. In quotes a backslash stands before each `"`, each `\` and each
    /// `$` that `{` follows. So the manual's rules for identifiers and strings give the name back.
    pub fn display_nix(&self, ty: TyRef) -> Result<String, Refusal> {
        self.text(Writing::DisplayNix, ty)
    }

    /// What `display_nix` gives, into lent bytes as by `display_into`.
    pub fn display_nix_into<'a>(&self, ty: TyRef, text: &'a mut [u8]) -> Result<&'a str, Refusal> {
        self.text_into(Writing::DisplayNix, ty, text)
    }

    /// The sheet of the names, all nodes and the type as its root; 6, and 9 if it is over 65,536 bytes.
    pub fn write_sheet(&self, ty: TyRef) -> Result<Vec<u8>, Refusal> {
        let mut bytes = vec![0; ffi::SHEET];
        let length = self.write_sheet_into(ty, &mut bytes)?.len();
        bytes.truncate(length);
        Ok(bytes)
    }

    /// The sheet at the front of lent bytes; the bytes past it stay. A refusal leaves all of them.
    pub fn write_sheet_into<'a>(
        &self,
        ty: TyRef,
        bytes: &'a mut [u8],
    ) -> Result<&'a [u8], Refusal> {
        let length = self.memory.write(Writing::Sheet, ty.into_raw(), bytes)?;
        Ok(&bytes[..length])
    }
}

/// Stores a type of the source in the target, which keeps all that it had, under the target's own names: each is found there
/// by its text. A node that the target has already is found, in a full target too. 6: the source has no such node; 12: a name of
/// the type isn't in the target's table; 7.
///
/// ```
/// use coombtray::{import_from_arena, Names, OutputTy, TypeArena};
///
/// let mut source = TypeArena::new(Names::new(["roll"])?);
/// let var = source.intern(OutputTy::TyVar(0))?;
/// let roll = source.intern(OutputTy::Named("roll".into(), var))?;
/// let mut target = TypeArena::new(Names::new(["pitch"])?);
/// assert_eq!(import_from_arena(&mut target, &source, roll).unwrap_err().number(), 12);
/// target.add_names(["roll"])?;
/// let imported = import_from_arena(&mut target, &source, roll)?;
/// assert_eq!(target.structurally_eq(imported, &source, roll), Ok(true));
/// # Ok::<(), coombtray::Refusal>(())
/// ```
pub fn import_from_arena(
    target: &mut TypeArena,
    source: &TypeArena,
    ty: TyRef,
) -> Result<TyRef, Refusal> {
    let root = target.memory.import(&source.memory, ty.into_raw());
    root.map(TyRef::from_raw)
}

impl fmt::Debug for TypeArena {
    fn fmt(&self, f: &mut fmt::Formatter<'_>) -> fmt::Result {
        write!(f, "TypeArena({} nodes)", self.len())
    }
}

pub(crate) fn order_of(number: u32) -> Ordering {
    match number {
        ffi::LESS => Ordering::Less,
        ffi::EQUAL => Ordering::Equal,
        ffi::GREATER => Ordering::Greater,
        _ => unreachable!("the library tells one of three orders"),
    }
}
