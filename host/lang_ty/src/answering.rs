//! The policy with the feature `outside-limits`: what the library refuses is answered by plain Rust and counted. A type
//! within the limits still goes to the library, whatever else its arena holds.

use coombtray::ffi;
use la_arena::Arena;
use rustc_hash::FxHashMap;

use crate::arena::{number, numbered};
use crate::laid::Laid;
use crate::library::{Change, Question};
use crate::refusal::Refused;
use crate::{outside_limits, plain, OutputTy, TyRef, TypeArena};

/// The number of levels of a type that has a child which wasn't stored before it.
const UNKNOWN: u32 = u32::MAX;

/// The numbers and levels of nodes of which some can't be laid.
#[derive(Clone)]
pub(crate) struct Beyond {
    numbers: FxHashMap<OutputTy, TyRef>,
    levels: Vec<u32>,
}

impl Beyond {
    fn of(laid: &Laid, nodes: &Arena<OutputTy>) -> Beyond {
        let all = || 0..laid.nodes();
        let numbers = all().map(numbered).map(|ty| (nodes[ty].clone(), ty));
        Beyond {
            numbers: numbers.collect(),
            levels: all().map(|at| laid.levels(at)).collect(),
        }
    }

    fn levels(&self, ty: TyRef) -> u32 {
        let levels = self.levels.get(number(ty) as usize);
        levels.copied().unwrap_or(UNKNOWN)
    }

    fn store(&mut self, nodes: &mut Arena<OutputTy>, node: OutputTy) -> TyRef {
        if let Some(&ty) = self.numbers.get(&node) {
            return ty;
        }
        let below = node.children().map(|child| self.levels(child));
        let levels = below.max().unwrap_or(0).saturating_add(1);
        let ty = nodes.alloc(node.clone());
        self.levels.push(levels);
        self.numbers.insert(node, ty);
        ty
    }
}

/// The nodes of one type, laid by themselves in the order of their numbers.
struct Part {
    laid: Laid,
    /// What each of them is in the arena.
    types: Vec<TyRef>,
    root: u32,
}

/// How the library sees a type: in its whole arena, or by itself.
enum View<'a> {
    Whole(&'a Laid, u32),
    Part(Box<Part>),
}

impl View<'_> {
    fn laid(&self) -> (&Laid, u32) {
        match self {
            View::Whole(laid, root) => (laid, *root),
            View::Part(part) => (&part.laid, part.root),
        }
    }

    /// What a node of the view is in the arena.
    fn ty(&self, at: u32) -> TyRef {
        match self {
            View::Whole(..) => numbered(at),
            View::Part(part) => part.types[at as usize],
        }
    }
}

impl TypeArena {
    pub(crate) fn store(&mut self, node: OutputTy) -> TyRef {
        if self.beyond.is_some() {
            return self.store_beyond(node);
        }
        self.lay(node).unwrap_or_else(|(_, node)| {
            self.go_beyond();
            self.store_beyond(node)
        })
    }

    /// Lays nodes no more, and finds them as they are.
    fn go_beyond(&mut self) {
        let laid = std::mem::take(&mut self.laid);
        self.beyond = Some(Box::new(Beyond::of(&laid, &self.nodes)));
    }

    fn store_beyond(&mut self, node: OutputTy) -> TyRef {
        let beyond = self.beyond.as_mut();
        let beyond = beyond.expect("the arena has gone beyond");
        beyond.store(&mut self.nodes, node)
    }

    fn stored(&self, node: &OutputTy) -> Option<TyRef> {
        self.beyond.as_ref()?.numbers.get(node).copied()
    }

    pub(crate) fn levels(&self, ty: TyRef) -> u32 {
        match &self.beyond {
            Some(beyond) => beyond.levels(ty),
            None => self.laid.levels(number(ty)),
        }
    }

    /// The type as the library can see it, or none.
    fn view(&self, ty: TyRef) -> Option<View<'_>> {
        if self.beyond.is_none() {
            return Some(View::Whole(&self.laid, number(ty)));
        }
        self.part(ty).map(Box::new).map(View::Part)
    }

    fn part(&self, ty: TyRef) -> Option<Part> {
        if self.levels(ty) == UNKNOWN {
            return None;
        }
        let reached = self.reach(ty).take(ffi::STARTS + 1);
        let mut types: Vec<TyRef> = reached.collect();
        types.sort();
        let mut laid = Laid::default();
        for (at, &ty) in types.iter().enumerate() {
            let child = |ty: TyRef| types[..at].binary_search(&ty).ok().map(|at| at as u32);
            laid.place(&self[ty], child).ok()?;
        }
        let root = laid.nodes() - 1;
        Some(Part { laid, types, root })
    }

    pub(crate) fn ask(&self, question: Question, ty: TyRef) -> u32 {
        let Some(view) = self.view(ty) else {
            outside_limits::count(question.name());
            return plain::ask(self, question, ty);
        };
        let (laid, root) = view.laid();
        let told = self.answered(laid.ask(question, root), question.name(), ty);
        match question {
            Question::UnwrapNamed => number(view.ty(told)),
            _ => told,
        }
    }

    pub(crate) fn vars(&self, ty: TyRef) -> Vec<u32> {
        let Some(view) = self.view(ty) else {
            outside_limits::count("free_type_vars");
            return plain::free_type_vars(self, ty);
        };
        let (laid, root) = view.laid();
        self.answered(laid.free_type_vars(root), "free_type_vars", ty)
    }

    pub(crate) fn text(&self, ty: TyRef) -> String {
        let view = self.view(ty);
        let text = view.map(|view| {
            let (laid, root) = view.laid();
            laid.display(root)
        });
        match text {
            None | Some(Err(Refused::TEXT)) => {
                outside_limits::count("display");
                plain::display(self, ty)
            }
            Some(text) => self.answered(text, "display", ty),
        }
    }

    pub(crate) fn equal(&self, ty: TyRef, other: &TypeArena, other_ty: TyRef) -> bool {
        let (Some(left), Some(right)) = (self.view(ty), other.view(other_ty)) else {
            outside_limits::count("structurally_eq");
            return plain::structurally_eq((self, ty), (other, other_ty));
        };
        let ((left, root), (right, other_root)) = (left.laid(), right.laid());
        let is = left.structurally_eq(root, right, other_root);
        self.answered(is, "structurally_eq", ty)
    }

    pub(crate) fn copied(&self, ty: TyRef) -> (TypeArena, TyRef) {
        let Some(view) = self.view(ty) else {
            outside_limits::count("compact");
            return plain::compact(self, ty);
        };
        let (laid, root) = view.laid();
        let (laid, root) = self.answered(laid.compact(root), "compact", ty);
        (TypeArena::of(&laid), numbered(root))
    }

    pub(crate) fn change(&mut self, change: Change, ty: TyRef) -> TyRef {
        if self.beyond.is_none() {
            match self.laid.change(change, number(ty)) {
                Err(Refused::ROOM | Refused::MEMBERS) => self.go_beyond(),
                changed => {
                    let changed = self.answered(changed, change.name(), ty);
                    self.take_in();
                    return numbered(changed);
                }
            }
        }
        self.change_part(change, ty).unwrap_or_else(|| {
            outside_limits::count(change.name());
            plain::change(self, change, ty)
        })
    }

    /// The change by the library in an arena of the type alone, whose new nodes are then stored here in their order.
    fn change_part(&mut self, change: Change, ty: TyRef) -> Option<TyRef> {
        let Part {
            mut laid,
            mut types,
            root,
        } = self.part(ty)?;
        let changed = laid.change(change, root).ok()?;
        let mut fresh = Vec::new();
        for at in types.len() as u32..laid.nodes() {
            let node = laid.node(at, |at| types[at as usize]);
            let ty = self.stored(&node);
            let ty = ty.unwrap_or_else(|| numbered((self.len() + fresh.len()) as u32));
            types.push(ty);
            if number(ty) as usize >= self.len() {
                fresh.push(node);
            }
        }
        // Node order compares numbers: it is the same here and there if they rise together.
        if matches!(change, Change::SetOps) && !types.is_sorted() {
            return None;
        }
        for node in fresh {
            self.store(node);
        }
        Some(types[changed as usize])
    }
}
