//! Safe code that asks for anything: nodes with children and names that aren't there, roots that aren't there, arenas that
//! are too small. 1, 2 and 5 never come, and a refusal changes nothing.

use coombtray::{
    import_from_arena, AttrSetTy, Field, Names, OutputTy, PrimitiveTy, Refusal, TyRef, TypeArena,
    Value,
};

use crate::build::untouched;
use crate::random::Random;

impl Random {
    /// A node that is there, mostly.
    fn ty(&mut self, arena: &TypeArena) -> TyRef {
        let there = arena.len() as u32;
        TyRef::from_raw(match self.below(30) {
            0 => there,
            1 => 4_095 + self.below(3),
            2 => u32::MAX - self.below(2),
            _ => self.below(there.max(1)),
        })
    }

    fn name(&mut self) -> String {
        ["p", "q", "r", "s", "not there", "", "é"][self.below(7) as usize].into()
    }

    fn set(&mut self, arena: &TypeArena) -> AttrSetTy {
        let mut attrs = AttrSetTy::new();
        for _ in 0..self.below(3) {
            let field = Field {
                ty: self.ty(arena),
                optional: self.below(2) == 0,
            };
            attrs.fields.insert(self.name(), field);
        }
        attrs.dyn_ty = (self.below(3) == 0).then(|| self.ty(arena));
        attrs.open = self.below(2) == 0;
        attrs
    }

    fn node(&mut self, arena: &TypeArena) -> OutputTy {
        match self.below(12) {
            0 => OutputTy::Bottom,
            1 => OutputTy::Top,
            2 => OutputTy::Primitive(PrimitiveTy::ALL[self.below(8) as usize]),
            3 => OutputTy::TyVar(self.below(4)),
            4 => OutputTy::List(self.ty(arena)),
            5 => OutputTy::Neg(self.ty(arena)),
            6 => OutputTy::Named(self.name(), self.ty(arena)),
            7 => OutputTy::AttrSet(self.set(arena)),
            8 => OutputTy::Lambda {
                param: self.ty(arena),
                body: self.ty(arena),
            },
            kind => {
                let count = [0, 1, 2, 3, 64, 65][self.below(6) as usize];
                let members = (0..count).map(|_| self.ty(arena)).collect();
                match kind % 2 {
                    0 => OutputTy::Union(members),
                    _ => OutputTy::Intersection(members),
                }
            }
        }
    }

    /// Imports from an arena of thirty nodes at most, which uses a name that the target hasn't.
    fn import(&mut self, t: &mut TypeArena) -> Result<TyRef, Refusal> {
        let names = Names::new(["a", "p", "q", "not there"]);
        let mut source = TypeArena::new(names.unwrap());
        for _ in 0..30 {
            // Some are refused, and then there are fewer.
            let _ = source.intern(self.node(&source));
        }
        let (ty, before) = (self.ty(&source), source.clone());
        let imported = import_from_arena(t, &source, ty);
        assert!(untouched(&source, &before));
        imported
    }

    /// A value at most so deep, with names that may be there or not, and at times with too many values.
    fn value(&mut self, depth: u32) -> Value {
        let count = if depth == 0 { 0 } else { self.below(4) };
        match self.below(8) {
            0 => Value::Null,
            1 => Value::Int(i64::MIN),
            2 => Value::Float(f64::NAN),
            3 => Value::String("é".into()),
            4 => Value::List(vec![Value::Null; self.below(2_000) as usize]),
            5 => Value::List((0..count).map(|_| self.value(depth - 1)).collect()),
            _ => {
                let fields = (0..count).map(|_| (self.name(), self.value(depth - 1)));
                Value::Set(fields.collect())
            }
        }
    }

    /// A call, or none; whether it was refused.
    fn call(&mut self, t: &mut TypeArena) -> Result<(), Refusal> {
        let (ty, other) = (self.ty(t), self.ty(t));
        match self.below(40) {
            0 => t.simplify(ty).map(|_| ()),
            1 => t.normalize_vars(ty).map(|_| ()),
            2 => t.normalize_replacing_unknown(ty).map(|_| ()),
            3 => t.normalize_set_ops(ty).map(|_| ()),
            4 => t.display(ty).map(|_| ()),
            5 => t.free_type_vars(ty).map(|_| ()),
            6 => t.compare(ty, other).map(|_| ()),
            7 => t.structurally_eq(ty, t, other).map(|_| ()),
            8 => t.compact(ty).map(|_| ()),
            9 => t.get(ty).map(|_| ()),
            10 => t.count_reachable(ty).map(|_| ()),
            11 => t.add_names(["a", "z"]),
            12 => t.display_nix(ty).map(|_| ()),
            13..=15 => self.import(t).map(|_| ()),
            16..=18 => t.fits(ty, &self.value(3)).map(|_| ()),
            _ => t.intern(self.node(t)).map(|_| ()),
        }
    }
}

/// What the refusals of a hundred calls on one arena were.
fn refused(seed: u64) -> Vec<u32> {
    let mut random = Random::new(seed);
    let names = Names::new(["p", "q", "r", "s"]).unwrap();
    let (words, nodes) = (random.below(300) as usize, random.below(80) as usize);
    let mut t = TypeArena::with_capacity(names, words, nodes).unwrap();
    let mut met = Vec::new();
    for _ in 0..100 {
        let before = t.clone();
        if let Err(refusal) = random.call(&mut t) {
            assert!(untouched(&t, &before), "{refusal} changed the arena");
            met.push(refusal.number());
        }
    }
    met
}

#[test]
fn no_one_no_two_no_five() {
    let met: Vec<u32> = (1..=500).flat_map(refused).collect();
    for number in 1..=14 {
        let often = met.iter().filter(|&&one| one == number).count();
        let can_be = [3, 4, 6, 7, 12, 13, 14].contains(&number);
        let may_be = can_be || [8, 9].contains(&number);
        assert!(often == 0 || may_be, "{number} came {often} times");
        assert!(often > 100 || !can_be, "{number} came {often} times");
    }
}
