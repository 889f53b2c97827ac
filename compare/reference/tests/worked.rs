//! The worked types of document 01, through the unchanged Rust and through the second run.

use lang_ty::{arc_ty, OutputTy, TyRef, TypeArena};
use reference::limited::Lent;
use reference::node::{Field, Node};
use reference::rust::Rust;
use reference::second::Second;
use reference::{simplify::simplify, NODES, WORDS};

const FULL: Lent = Lent {
    words: WORDS,
    starts: NODES,
};

/// A type that is built node by node, each under the number that the Rust gives it.
#[derive(Default)]
struct Types(Vec<Node>);

impl Types {
    fn put(&mut self, node: Node) -> u32 {
        let at = self.0.iter().position(|n| *n == node);
        at.unwrap_or_else(|| {
            self.0.push(node);
            self.0.len() - 1
        }) as u32
    }

    fn var(&mut self, index: u32) -> u32 {
        self.put(Node::TyVar(index))
    }

    fn int(&mut self) -> u32 {
        self.put(Node::Primitive(2))
    }

    /// `simplify` by both runs.
    fn run(&self, root: u32) -> Second {
        let run = simplify(&self.0, &[], root, FULL);
        assert!(run.can_be_walked);
        run
    }

    /// The passes made, and the text.
    fn simplified(&self, root: u32) -> (u32, String) {
        let run = self.run(root);
        let text = Rust::holding(&run.arena.nodes, &[]).display(run.root, 65_536);
        (run.passes, text.unwrap())
    }

    fn shown(&self, root: u32) -> String {
        Rust::holding(&self.0, &[]).display(root, 65_536).unwrap()
    }
}

/// By the Rust alone, with nothing of the second run or of our nodes.
fn by_rust(build: impl Fn(&mut TypeArena) -> TyRef) -> String {
    let mut arena = TypeArena::new();
    let root = build(&mut arena);
    let root = lang_ty::simplify::simplify(&mut arena, root);
    arena.display(root).to_string()
}

// The source's macro can't be used for these two: it borrows the arena twice.
fn union<const N: usize>(t: &mut TypeArena, members: [TyRef; N]) -> TyRef {
    t.intern(OutputTy::Union(members.into()))
}

fn isect<const N: usize>(t: &mut TypeArena, members: [TyRef; N]) -> TyRef {
    t.intern(OutputTy::Intersection(members.into()))
}

#[test]
fn names_of_variables() {
    let names = [25, 26, 4294967294, 4294967295].map(lang_ty::tyvar_name);
    assert_eq!(names, ["z", "a1", "u165191049", "?"]);
}

#[test]
fn simplified_by_the_rust_alone() {
    let list = |build: fn(&mut TypeArena) -> [TyRef; 2]| {
        by_rust(|t| {
            let members = build(t);
            union(t, members)
        })
    };
    assert_eq!(list(|t| [arc_ty!(t, # 0), arc_ty!(t, Int)]), "int");
    assert_eq!(list(|t| [arc_ty!(t, # 0), arc_ty!(t, # 1)]), "a");
    assert_eq!(list(|t| [arc_ty!(t, # 0), arc_ty!(t, Bottom)]), "a");
    assert_eq!(list(|t| [arc_ty!(t, Bottom), arc_ty!(t, # 0)]), "never");
    let any = list(|t| {
        let members = [arc_ty!(t, Top), arc_ty!(t, # 0)];
        [arc_ty!(t, Int), isect(t, members)]
    });
    assert_eq!(any, "any");
}

#[test]
fn kept_by_the_rust_alone() {
    let text = by_rust(|t| {
        let members = [arc_ty!(t, # 0), arc_ty!(t, Int)];
        let (param, body) = (members[0], union(t, members));
        t.intern(OutputTy::Lambda { param, body })
    });
    assert_eq!(text, "a -> a | int");
}

#[test]
fn printed_by_the_rust_alone() {
    assert_eq!(by_rust(|t| arc_ty!(t, {})), "{  }");
    assert_eq!(by_rust(|t| arc_ty!(t, {; ...})), "{ ... }");
    // No parentheses round an intersection inside a union, but the other way round.
    let inside = by_rust(|t| {
        let inner = [arc_ty!(t, Null), arc_ty!(t, Bool)];
        let members = [arc_ty!(t, Int), isect(t, inner)];
        union(t, members)
    });
    assert_eq!(inside, "int | null & bool");
    let other = by_rust(|t| {
        let inner = [arc_ty!(t, Null), arc_ty!(t, Bool)];
        let members = [arc_ty!(t, Int), union(t, inner)];
        isect(t, members)
    });
    assert_eq!(other, "int & (null | bool)");
}

#[test]
fn normalized_by_the_rust_alone() {
    let mut t = TypeArena::new();
    let inner = [arc_ty!(t, Null), arc_ty!(t, Bool)];
    let members = [arc_ty!(t, Int), arc_ty!(t, Null), union(&mut t, inner)];
    let ty = union(&mut t, members);
    let ty = t.normalize_set_ops(ty);
    assert_eq!(t.display(ty).to_string(), "null | bool | int");
}

#[test]
fn shared_params_by_the_rust_alone() {
    let mut arena = TypeArena::new();
    let same = arc_ty!(arena, { "p": ((# 0) -> Int), "q": ((# 0) -> Int) });
    assert!(!arena.has_shared_tyvar_across_lambda_params(same));
    let two = arc_ty!(arena, { "p": ((# 0) -> Int), "q": ((# 0) -> Bool) });
    assert!(arena.has_shared_tyvar_across_lambda_params(two));
}

#[test]
fn passes() {
    let mut t = Types::default();
    let (a, b, int) = (t.var(0), t.var(1), t.int());
    let dropped = t.put(Node::Union(vec![a, int]));
    assert_eq!(t.simplified(dropped), (2, "int".into()));
    let pair = t.put(Node::Union(vec![a, b]));
    assert_eq!(t.simplified(pair), (2, "a".into()));
    let three = t.put(Node::Intersection(vec![pair, int]));
    assert_eq!(t.simplified(three), (3, "int".into()));
    let kept = t.put(Node::Lambda(a, dropped));
    assert_eq!(t.run(kept).root, kept);
    assert_eq!(t.simplified(kept).0, 2);
}

/// The first of the pair after so many steps of the ladder.
fn ladder(t: &mut Types, steps: u32) -> u32 {
    let mut pair = (t.var(0), t.var(1));
    for step in 1..=steps {
        let kind = if step % 2 == 1 {
            Node::Union
        } else {
            Node::Intersection
        };
        let first = t.put(kind(vec![pair.0, pair.1]));
        let second = t.put(kind(vec![pair.1, pair.0]));
        pair = (first, second);
    }
    pair.0
}

#[test]
fn ladders() {
    for (steps, text) in [(6, "a"), (7, "a | b")] {
        let mut t = Types::default();
        let root = ladder(&mut t, steps);
        assert_eq!(t.simplified(root), (6, text.into()));
    }
    let mut t = Types::default();
    let root = ladder(&mut t, 40);
    let run = simplify(&t.0, &[], root, FULL);
    assert!(!run.can_be_walked, "2^40 places");
}

#[test]
fn sets() {
    let mut t = Types::default();
    let closed = t.put(Node::AttrSet(vec![], None, false));
    let open = t.put(Node::AttrSet(vec![], None, true));
    assert_eq!(t.shown(closed), "{  }");
    assert_eq!(t.shown(open), "{ ... }");
    let child = t.int();
    let optional = true;
    let field = Field {
        optional,
        name: 0,
        child,
    };
    t.put(Node::AttrSet(vec![field], Some(closed), true));
    let rust = Rust::holding(&t.0, &["roll angle".into()]);
    let text = "{ roll angle?: int, _: {  }, ... }";
    assert_eq!(rust.display(3, text.len()).unwrap(), text);
    assert_eq!(rust.display(3, text.len() - 1), Err(9));
}

#[test]
fn the_65th_member() {
    for (last, refused) in [(63, None), (64, Some(8))] {
        let mut t = Types::default();
        let vars: Vec<u32> = (0..=last).map(|i| t.var(i)).collect();
        // Each variable has both signs, so that none is dropped.
        let mut body = t.put(Node::Union(vars[..60].to_vec()));
        let rest = t.put(Node::Union(vars[50..].to_vec()));
        body = t.put(Node::Union(vec![body, rest]));
        for var in vars {
            body = t.put(Node::Lambda(var, body));
        }
        assert_eq!(t.run(body).arena.refused, refused);
    }
}

#[test]
fn the_limit_of_7() {
    // U[[U[a, int]], null]: the pass adds [int] and the union.
    let mut t = Types::default();
    let (a, int) = (t.var(0), t.int());
    let inner = t.put(Node::Union(vec![a, int]));
    let list = t.put(Node::List(inner));
    let null = t.put(Node::Primitive(0));
    let root = t.put(Node::Union(vec![list, null]));
    let run = |words, starts| {
        let lent = Lent { words, starts };
        simplify(&t.0, &[], root, lent).arena.refused
    };
    assert_eq!(run(19, 8), None);
    assert_eq!(run(18, 8), Some(7));
    assert_eq!(run(19, 7), Some(7));
}
