//! The unchanged Rust, given our nodes and asked in our numbers.

use std::cmp::Ordering;
use std::fmt::Write;
use std::sync::Arc;

use lang_ty::{AttrSetTy, OutputTy, OwnedTy, TyRef, TypeArena};
use smol_str::SmolStr;

use crate::node::{Field, Node};
use crate::primitives::PRIMITIVES;
use crate::spelling::{spelled, stand_in, InPlace};
use crate::{Reply, TEXT};

#[derive(Clone)]
pub struct Rust {
    pub arena: TypeArena,
    names: Vec<SmolStr>,
}

fn at(number: u32) -> TyRef {
    TyRef::from_raw(number)
}

fn numbers(members: &[TyRef]) -> Vec<u32> {
    members.iter().map(|m| m.into_raw()).collect()
}

impl Rust {
    /// A Rust arena with these nodes under the same numbers.
    pub fn holding(nodes: &[Node], names: &[String]) -> Rust {
        let mut rust = Rust::over(TypeArena::new(), names);
        for (number, node) in nodes.iter().enumerate() {
            assert_eq!(rust.intern(node) as usize, number, "nodes differ");
        }
        rust
    }

    /// This arena, whose names are in the table.
    pub fn over(arena: TypeArena, names: &[impl AsRef<str>]) -> Rust {
        let names = names.iter().map(SmolStr::new).collect();
        Rust { arena, names }
    }

    pub fn intern(&mut self, node: &Node) -> u32 {
        let node = self.put(node);
        self.arena.intern(node).into_raw()
    }

    pub fn simplify(&mut self, root: u32) -> u32 {
        self.change(root, lang_ty::simplify::simplify)
    }

    /// A call that may add nodes and gives a type back.
    pub fn change(&mut self, root: u32, call: fn(&mut TypeArena, TyRef) -> TyRef) -> u32 {
        call(&mut self.arena, at(root)).into_raw()
    }

    /// A question about a type.
    pub fn ask<T>(&self, root: u32, question: fn(&TypeArena, TyRef) -> T) -> T {
        question(&self.arena, at(root))
    }

    pub fn unwrap_named(&self, root: u32) -> u32 {
        self.ask(root, TypeArena::unwrap_named).into_raw()
    }

    /// The nodes of the compact arena, and the root there.
    pub fn compact(&self, root: u32) -> (Vec<Node>, u32) {
        let (arena, root) = self.arena.compact(at(root));
        let names = self.names.clone();
        (Rust { arena, names }.nodes(), root.into_raw())
    }

    pub fn structurally_eq(self, root: u32, other: Rust, other_root: u32) -> bool {
        let left = OwnedTy::new(Arc::new(self.arena), at(root));
        let right = OwnedTy::new(Arc::new(other.arena), at(other_root));
        left.structurally_eq(&right)
    }

    /// The number here of a type imported from another arena, whose names come along as strings.
    pub fn import_from_arena(&mut self, source: &Rust, root: u32) -> u32 {
        let mut met = Default::default();
        lang_ty::import_from_arena(&mut self.arena, &source.arena, at(root), &mut met).into_raw()
    }

    /// Whether the table has every name of the arena.
    pub fn has_its_names(&self) -> bool {
        let is_here = |name: &SmolStr| self.names.binary_search(name).is_ok();
        (0..self.arena.len() as u32).all(|number| match &self.arena[at(number)] {
            OutputTy::AttrSet(set) => set.fields.keys().all(is_here),
            OutputTy::Named(name, _) => is_here(name),
            _ => true,
        })
    }

    pub fn order(&self, left: u32, right: u32) -> Ordering {
        self.arena[at(left)].cmp(&self.arena[at(right)])
    }

    pub fn nodes(&self) -> Vec<Node> {
        let all = 0..self.arena.len() as u32;
        all.map(|number| self.take(&self.arena[at(number)]))
            .collect()
    }

    /// The text, or 9 if it is longer than `room` or the most there may be.
    pub fn display(&self, root: u32, room: usize) -> Reply<String> {
        let mut text = Bounded::of(room);
        self.print(root, &mut text)?;
        Ok(text.text)
    }

    fn print(&self, root: u32, to: &mut impl Write) -> Reply<()> {
        write!(to, "{}", self.arena.display(at(root))).map_err(|_| 9)
    }

    /// The same, with the names as the manual writes them. The Rust prints stand-ins for them, in the same order; with the
    /// names as they are in their places, the text must be the Rust's own.
    pub fn display_nix(&self, root: u32, room: usize) -> Reply<String> {
        let stand_ins: Vec<String> = (0..self.names.len()).map(stand_in).collect();
        let rust = Rust::holding(&self.nodes(), &stand_ins);
        let bare: Vec<String> = self.names.iter().map(|name| name.to_string()).collect();
        let own = self.display(root, TEXT);
        assert_eq!(rust.naming(root, TEXT, &bare), own, "the texts differ");
        let names: Vec<String> = bare.iter().map(|name| spelled(name)).collect();
        rust.naming(root, room, &names)
    }

    /// The text with these names in the places of stand-ins.
    fn naming(&self, root: u32, room: usize, names: &[String]) -> Reply<String> {
        let to = Bounded::of(room);
        let mut text = InPlace { to, names };
        self.print(root, &mut text)?;
        Ok(text.to.text)
    }

    /// The Rust's form of a node.
    pub fn put(&self, node: &Node) -> OutputTy {
        let refs = |members: &[u32]| members.iter().map(|&m| at(m)).collect();
        let name = |name: u16| self.names[usize::from(name)].clone();
        match node {
            Node::Bottom => OutputTy::Bottom,
            Node::Top => OutputTy::Top,
            Node::Primitive(code) => OutputTy::Primitive(PRIMITIVES[*code as usize]),
            Node::TyVar(index) => OutputTy::TyVar(*index),
            Node::List(child) => OutputTy::List(at(*child)),
            Node::Lambda(param, body) => OutputTy::Lambda {
                param: at(*param),
                body: at(*body),
            },
            Node::AttrSet(fields, dynamic, open) => {
                let optional = fields.iter().filter(|f| f.optional);
                OutputTy::AttrSet(AttrSetTy {
                    fields: fields.iter().map(|f| (name(f.name), at(f.child))).collect(),
                    dyn_ty: dynamic.map(at),
                    open: *open,
                    optional_fields: optional.map(|f| name(f.name)).collect(),
                })
            }
            Node::Union(members) => OutputTy::Union(refs(members)),
            Node::Intersection(members) => OutputTy::Intersection(refs(members)),
            Node::Named(alias, child) => OutputTy::Named(name(*alias), at(*child)),
            Node::Neg(child) => OutputTy::Neg(at(*child)),
        }
    }

    fn take(&self, node: &OutputTy) -> Node {
        let number = |name: &SmolStr| self.names.binary_search(name).unwrap() as u16;
        match node {
            OutputTy::Bottom => Node::Bottom,
            OutputTy::Top => Node::Top,
            OutputTy::Primitive(p) => {
                let code = PRIMITIVES.iter().position(|q| q == p);
                Node::Primitive(code.unwrap() as u32)
            }
            OutputTy::TyVar(index) => Node::TyVar(*index),
            OutputTy::List(child) => Node::List(child.into_raw()),
            OutputTy::Lambda { param, body } => Node::Lambda(param.into_raw(), body.into_raw()),
            OutputTy::AttrSet(set) => {
                let field = |(name, child): (&SmolStr, &TyRef)| Field {
                    optional: set.optional_fields.contains(name),
                    name: number(name),
                    child: child.into_raw(),
                };
                let fields = set.fields.iter().map(field).collect();
                Node::AttrSet(fields, set.dyn_ty.map(TyRef::into_raw), set.open)
            }
            OutputTy::Union(members) => Node::Union(numbers(members)),
            OutputTy::Intersection(members) => Node::Intersection(numbers(members)),
            OutputTy::Named(name, child) => Node::Named(number(name), child.into_raw()),
            OutputTy::Neg(child) => Node::Neg(child.into_raw()),
            OutputTy::Extern(_) => unreachable!("no node of ours is Extern"),
        }
    }
}

/// A text that takes no more than it has room for, so that the Rust stops printing there.
struct Bounded {
    text: String,
    room: usize,
}

impl Bounded {
    /// Of so many bytes, or the most that there may be.
    fn of(room: usize) -> Bounded {
        Bounded {
            text: String::new(),
            room: room.min(TEXT),
        }
    }
}

impl Write for Bounded {
    fn write_str(&mut self, part: &str) -> std::fmt::Result {
        if self.text.len() + part.len() > self.room {
            return Err(std::fmt::Error);
        }
        self.text.push_str(part);
        Ok(())
    }
}
