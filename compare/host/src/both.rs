//! An arena of each, with the same nodes under the same numbers.

use coombtray as ours;
use lang_ty as theirs;
use smol_str::SmolStr;

pub fn to_ours(ty: theirs::TyRef) -> ours::TyRef {
    ours::TyRef::from_raw(ty.into_raw())
}

pub fn to_theirs(ty: ours::TyRef) -> theirs::TyRef {
    theirs::TyRef::from_raw(ty.into_raw())
}

pub const PRIMITIVES: [(ours::PrimitiveTy, theirs::PrimitiveTy); 8] = [
    (ours::PrimitiveTy::Null, theirs::PrimitiveTy::Null),
    (ours::PrimitiveTy::Bool, theirs::PrimitiveTy::Bool),
    (ours::PrimitiveTy::Int, theirs::PrimitiveTy::Int),
    (ours::PrimitiveTy::Float, theirs::PrimitiveTy::Float),
    (ours::PrimitiveTy::String, theirs::PrimitiveTy::String),
    (ours::PrimitiveTy::Path, theirs::PrimitiveTy::Path),
    (ours::PrimitiveTy::Uri, theirs::PrimitiveTy::Uri),
    (ours::PrimitiveTy::Number, theirs::PrimitiveTy::Number),
];

fn their_set(attrs: &ours::AttrSetTy) -> theirs::AttrSetTy<theirs::TyRef> {
    let fields = attrs.fields.iter();
    let optional = fields.clone().filter(|(_, field)| field.optional);
    theirs::AttrSetTy {
        fields: fields
            .map(|(name, field)| (SmolStr::new(name), to_theirs(field.ty)))
            .collect(),
        dyn_ty: attrs.dyn_ty.map(to_theirs),
        open: attrs.open,
        optional_fields: optional.map(|(name, _)| SmolStr::new(name)).collect(),
    }
}

fn our_set(attrs: &theirs::AttrSetTy<theirs::TyRef>) -> ours::AttrSetTy {
    let fields = attrs.fields.iter().map(|(name, &ty)| {
        let field = ours::Field {
            ty: to_ours(ty),
            optional: attrs.optional_fields.contains(name),
        };
        (name.to_string(), field)
    });
    ours::AttrSetTy {
        fields: fields.collect(),
        dyn_ty: attrs.dyn_ty.map(to_ours),
        open: attrs.open,
    }
}

pub fn their_node(node: &ours::OutputTy) -> theirs::OutputTy {
    use theirs::OutputTy::*;
    let list = |members: &[ours::TyRef]| members.iter().copied().map(to_theirs).collect();
    match node {
        ours::OutputTy::Bottom => Bottom,
        ours::OutputTy::Top => Top,
        ours::OutputTy::Primitive(of) => {
            let pair = PRIMITIVES.iter().find(|(known, _)| known == of);
            Primitive(pair.expect("one of eight").1)
        }
        ours::OutputTy::TyVar(index) => TyVar(*index),
        ours::OutputTy::List(inner) => List(to_theirs(*inner)),
        ours::OutputTy::Lambda { param, body } => Lambda {
            param: to_theirs(*param),
            body: to_theirs(*body),
        },
        ours::OutputTy::AttrSet(attrs) => AttrSet(their_set(attrs)),
        ours::OutputTy::Union(members) => Union(list(members)),
        ours::OutputTy::Intersection(members) => Intersection(list(members)),
        ours::OutputTy::Named(name, inner) => Named(SmolStr::new(name), to_theirs(*inner)),
        ours::OutputTy::Neg(inner) => Neg(to_theirs(*inner)),
    }
}

fn our_node(node: &theirs::OutputTy) -> ours::OutputTy {
    use ours::OutputTy::*;
    let list = |members: &[theirs::TyRef]| members.iter().copied().map(to_ours).collect();
    match node {
        theirs::OutputTy::Bottom => Bottom,
        theirs::OutputTy::Top => Top,
        theirs::OutputTy::Primitive(of) => {
            let pair = PRIMITIVES.iter().find(|(_, known)| known == of);
            Primitive(pair.expect("one of eight").0)
        }
        theirs::OutputTy::TyVar(index) => TyVar(*index),
        theirs::OutputTy::List(inner) => List(to_ours(*inner)),
        theirs::OutputTy::Lambda { param, body } => Lambda {
            param: to_ours(*param),
            body: to_ours(*body),
        },
        theirs::OutputTy::AttrSet(attrs) => AttrSet(our_set(attrs)),
        theirs::OutputTy::Union(members) => Union(list(members)),
        theirs::OutputTy::Intersection(members) => Intersection(list(members)),
        theirs::OutputTy::Named(name, inner) => Named(name.to_string(), to_ours(*inner)),
        theirs::OutputTy::Neg(inner) => Neg(to_ours(*inner)),
        theirs::OutputTy::Extern(_) => unreachable!("no node of ours is Extern"),
    }
}

/// The nodes of a Rust arena, as ours.
pub fn nodes(arena: &theirs::TypeArena) -> Vec<ours::OutputTy> {
    let all = (0..arena.len() as u32).map(theirs::TyRef::from_raw);
    all.map(|ty| our_node(arena.get(ty))).collect()
}

#[derive(Clone)]
pub struct Both {
    pub ours: ours::TypeArena,
    pub theirs: theirs::TypeArena,
}

impl Both {
    pub fn new(names: &[&str]) -> Both {
        let names = ours::Names::new(names).expect("good names");
        Both {
            ours: ours::TypeArena::new(names),
            theirs: theirs::TypeArena::new(),
        }
    }

    /// Stores a node in both.
    pub fn intern(&mut self, node: ours::OutputTy) -> ours::TyRef {
        let theirs = to_ours(self.theirs.intern(their_node(&node)));
        let ours = self.ours.intern(node).expect("a node of the arena");
        assert_eq!(ours, theirs, "the numbers of a node");
        ours
    }

    /// Both have the same nodes, and print the type alike.
    pub fn alike(&self, ty: ours::TyRef) {
        assert!(self.ours.nodes().eq(nodes(&self.theirs)), "the arenas");
        self.printed(ty);
    }

    pub fn printed(&self, ty: ours::TyRef) {
        let text = self.theirs.display(to_theirs(ty)).to_string();
        match self.ours.display(ty) {
            Ok(ours) => assert_eq!(ours, text),
            Err(refusal) => assert!(refusal.number() == 9 && text.len() > 65_536, "{refusal}"),
        }
    }

    /// A call that may add nodes, in both; they must give the same type.
    pub fn change(
        &mut self,
        ty: ours::TyRef,
        ours: impl Fn(&mut ours::TypeArena, ours::TyRef) -> Result<ours::TyRef, ours::Refusal>,
        theirs: impl Fn(&mut theirs::TypeArena, theirs::TyRef) -> theirs::TyRef,
    ) -> ours::TyRef {
        let root = ours(&mut self.ours, ty).expect("there is room");
        let other = theirs(&mut self.theirs, to_theirs(ty));
        assert_eq!(root, to_ours(other), "the roots");
        self.alike(root);
        root
    }
}
