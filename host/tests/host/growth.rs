//! An arena is lent little at first and more as it grows. Random arenas are held beside the raw calls on memory that is as
//! large as it may become from the start: numbers, words and refusals must be the same.

use std::collections::HashSet;

use coombtray::{
    ffi, import_from_arena, AttrSetTy, Field, Names, OutputTy, PrimitiveTy, Refusal, TyRef,
    TypeArena,
};

use crate::build::*;
use crate::random::Random;

const FULL: (usize, usize) = (ffi::WORDS, ffi::STARTS);
const NAMES: [&str; 4] = ["p", "q", "r", "s"];
const TABLE: &[u8] = b"\x01p\x01q\x01r\x01s";

fn names() -> Names {
    Names::new(NAMES).unwrap()
}

/// Memory that is lent whole.
#[derive(Clone, PartialEq)]
struct Whole {
    words: Vec<u32>,
    starts: Vec<u32>,
    nodes: usize,
    used: usize,
}

type Change = unsafe extern "C" fn(
    *const u8,
    usize,
    *mut u32,
    usize,
    *mut u32,
    usize,
    *mut usize,
    *mut usize,
    u32,
    *mut u32,
) -> u32;

// SAFETY, for every block below: each pointer and length is that of a vector or a number that lives through the call, and
// none that is written is passed twice.
impl Whole {
    fn of(limit: (usize, usize)) -> Whole {
        Whole {
            words: vec![0; limit.0],
            starts: vec![0; limit.1],
            nodes: 0,
            used: 0,
        }
    }

    fn lay(&mut self, node: &[u32]) {
        self.words[self.used..][..node.len()].copy_from_slice(node);
        self.starts[self.nodes] = self.used as u32;
        (self.nodes, self.used) = (self.nodes + 1, self.used + node.len());
    }

    fn intern(&mut self, node: &[u32]) -> (u32, [u32; 2]) {
        let mut number = 0;
        let answer = unsafe {
            ffi::lang_ty_intern(
                TABLE.as_ptr(),
                TABLE.len(),
                self.words.as_mut_ptr(),
                self.words.len(),
                self.starts.as_mut_ptr(),
                self.starts.len(),
                &mut self.nodes,
                &mut self.used,
                node.as_ptr(),
                node.len(),
                &mut number,
            )
        };
        (answer, [number, 0])
    }

    fn simplify(&mut self, root: u32) -> (u32, [u32; 2]) {
        let (mut after, mut passes) = (0, 0);
        let answer = unsafe {
            ffi::lang_ty_simplify(
                TABLE.as_ptr(),
                TABLE.len(),
                self.words.as_mut_ptr(),
                self.words.len(),
                self.starts.as_mut_ptr(),
                self.starts.len(),
                &mut self.nodes,
                &mut self.used,
                root,
                &mut after,
                &mut passes,
            )
        };
        (answer, [after, passes])
    }

    fn change(&mut self, call: Change, root: u32) -> (u32, [u32; 2]) {
        let mut after = 0;
        let answer = unsafe {
            call(
                TABLE.as_ptr(),
                TABLE.len(),
                self.words.as_mut_ptr(),
                self.words.len(),
                self.starts.as_mut_ptr(),
                self.starts.len(),
                &mut self.nodes,
                &mut self.used,
                root,
                &mut after,
            )
        };
        (answer, [after, 0])
    }

    fn compact(&self, root: u32, target: &mut Whole) -> (u32, [u32; 2]) {
        let mut after = 0;
        let answer = unsafe {
            ffi::lang_ty_compact(
                TABLE.as_ptr(),
                TABLE.len(),
                self.words.as_ptr(),
                self.words.len(),
                self.starts.as_ptr(),
                self.starts.len(),
                self.nodes,
                self.used,
                root,
                target.words.as_mut_ptr(),
                target.words.len(),
                target.starts.as_mut_ptr(),
                target.starts.len(),
                &mut target.nodes,
                &mut target.used,
                &mut after,
            )
        };
        (answer, [after, 0])
    }

    fn import(&mut self, source: &Whole, root: u32) -> (u32, [u32; 2]) {
        let mut after = 0;
        let answer = unsafe {
            ffi::lang_ty_import_from_arena(
                TABLE.as_ptr(),
                TABLE.len(),
                source.words.as_ptr(),
                source.words.len(),
                source.starts.as_ptr(),
                source.starts.len(),
                source.nodes,
                source.used,
                root,
                TABLE.as_ptr(),
                TABLE.len(),
                self.words.as_mut_ptr(),
                self.words.len(),
                self.starts.as_mut_ptr(),
                self.starts.len(),
                &mut self.nodes,
                &mut self.used,
                &mut after,
            )
        };
        (answer, [after, 0])
    }
}

/// The words of a node over so many others.
fn words(random: &mut Random, there: u32) -> Vec<u32> {
    if there == 0 || random.below(4) == 0 {
        return match random.below(3) {
            0 => vec![0x2000_0001, random.below(8)],
            _ => vec![0x3000_0001, random.below(300)],
        };
    }
    let child = random.below(there);
    match random.below(6) {
        0 => vec![0x4000_0001, child],
        1 => vec![0x5000_0002, random.below(there), child],
        2 => vec![
            0x6000_0001,
            random.below(2) << 31 | random.below(4) << 15 | child,
        ],
        kind => {
            let count = [1, 2, 2, 3, 3, 40][random.below(6) as usize];
            let members = (0..count).map(|_| random.below(there));
            [7 + kind % 2 << 28 | count]
                .into_iter()
                .chain(members)
                .collect()
        }
    }
}

/// The node of such words.
fn node(words: &[u32]) -> OutputTy {
    let at = |word: &u32| TyRef::from_raw(word & 0xfff);
    let (head, body) = (words[0], &words[1..]);
    match head >> 28 {
        2 => OutputTy::Primitive(PrimitiveTy::ALL[body[0] as usize]),
        3 => OutputTy::TyVar(body[0]),
        4 => OutputTy::List(at(&body[0])),
        5 => OutputTy::Lambda {
            param: at(&body[0]),
            body: at(&body[1]),
        },
        6 => {
            let (ty, optional) = (at(&body[0]), body[0] >> 31 == 1);
            let name = NAMES[(body[0] >> 15 & 0xffff) as usize];
            let mut attrs = AttrSetTy::new();
            attrs.fields.insert(name.into(), Field { ty, optional });
            OutputTy::AttrSet(attrs)
        }
        7 => OutputTy::Union(body.iter().map(at).collect()),
        _ => OutputTy::Intersection(body.iter().map(at).collect()),
    }
}

/// What a call of the crate says, as the raw call does.
fn said<T>(reply: Result<T, Refusal>, numbers: impl Fn(T) -> [u32; 2]) -> (u32, [u32; 2]) {
    match reply {
        Ok(told) => (0, numbers(told)),
        Err(refusal) => (refusal.number(), [0; 2]),
    }
}

/// What must be lent for so many words and nodes: 256 words and 64 starts, doubled until half is free.
fn expected(used: usize, nodes: usize, limit: (usize, usize)) -> (usize, usize) {
    let doubled = (0..7).map(|times| (256 << times, 64 << times));
    let mut enough = doubled.filter(|&(words, starts)| words >= 2 * used && starts >= 2 * nodes);
    let (words, starts) = enough.next().unwrap_or(FULL);
    (words.min(limit.0), starts.min(limit.1))
}

/// An arena that grows and one that is lent whole, with the same nodes.
struct Pair {
    grown: TypeArena,
    whole: Whole,
    limit: (usize, usize),
}

impl Pair {
    fn empty(limit: (usize, usize)) -> Pair {
        let grown = TypeArena::with_capacity(names(), limit.0, limit.1);
        Pair {
            grown: grown.unwrap(),
            whole: Whole::of(limit),
            limit,
        }
    }

    /// So many random nodes, or as many as fit, laid at once.
    fn laid(random: &mut Random, nodes: usize) -> Pair {
        let mut whole = Whole::of(FULL);
        let (mut given, mut seen) = (Vec::new(), HashSet::new());
        while given.len() < nodes {
            let words = words(random, given.len() as u32);
            if whole.used + words.len() > ffi::WORDS {
                break;
            }
            if seen.insert(words.clone()) {
                whole.lay(&words);
                given.push(node(&words));
            }
        }
        let grown = TypeArena::from_nodes(names(), given).unwrap();
        let limit = FULL;
        Pair {
            grown,
            whole,
            limit,
        }
    }

    /// The same nodes, no more lent than the rule says, and zeros past the nodes.
    fn alike(&self) {
        let (grown, whole) = (&self.grown, &self.whole);
        assert_eq!(grown.len(), whole.nodes);
        assert!(grown.words() == &whole.words[..whole.used]);
        assert!(whole.words[whole.used..].iter().all(|&word| word == 0));
        let lent = expected(whole.used, whole.nodes, self.limit);
        assert_eq!(grown.lent(), lent, "{} of {}", whole.used, whole.nodes);
    }

    /// Stores a node in both.
    fn put(&mut self, words: Vec<u32>) -> u32 {
        let number = self.grown.intern(node(&words)).unwrap().into_raw();
        assert_eq!(self.whole.intern(&words), (0, [number, 0]));
        number
    }

    /// One call by both; the number that they answer.
    fn call(&mut self, random: &mut Random) -> u32 {
        let root = random.below(self.grown.len().max(1) as u32 + 1);
        let ty = TyRef::from_raw(root);
        let (grown, whole) = (&mut self.grown, &mut self.whole);
        let of = |ty: TyRef| [ty.into_raw(), 0];
        let before = (grown.clone(), whole.clone());
        let (ours, raw) = match random.below(20) {
            0 | 1 => {
                let numbers = |done: coombtray::Simplified| [done.root.into_raw(), done.passes];
                (said(grown.simplify(ty), numbers), whole.simplify(root))
            }
            2 => {
                let raw = whole.change(ffi::lang_ty_normalize_vars, root);
                (said(grown.normalize_vars(ty), of), raw)
            }
            3 => {
                let raw = whole.change(ffi::lang_ty_normalize_replacing_unknown, root);
                (said(grown.normalize_replacing_unknown(ty), of), raw)
            }
            4 | 5 => {
                let raw = whole.change(ffi::lang_ty_normalize_set_ops, root);
                (said(grown.normalize_set_ops(ty), of), raw)
            }
            6 => return self.copy(root),
            7 | 8 => {
                let nodes = [5, 60, 300][random.below(3) as usize];
                let source = Pair::laid(random, nodes);
                let root = random.below(nodes as u32 + 1);
                let ours = import_from_arena(grown, &source.grown, TyRef::from_raw(root));
                source.alike();
                (said(ours, of), whole.import(&source.whole, root))
            }
            _ => {
                let words = words(random, grown.len() as u32);
                (said(grown.intern(node(&words)), of), whole.intern(&words))
            }
        };
        assert_eq!(ours, raw);
        self.alike();
        assert!(raw.0 == 0 || untouched(&self.grown, &before.0) && self.whole == before.1);
        raw.0
    }

    /// A copy into new arenas.
    fn copy(&self, root: u32) -> u32 {
        let mut into = Whole::of(self.limit);
        let raw = self.whole.compact(root, &mut into);
        let copied = self.grown.compact(TyRef::from_raw(root));
        if let Ok((grown, _)) = &copied {
            let (grown, limit) = (grown.clone(), self.limit);
            Pair {
                grown,
                whole: into,
                limit,
            }
            .alike();
        }
        assert_eq!(said(copied, |(_, ty)| [ty.into_raw(), 0]), raw);
        raw.0
    }
}

/// How often each number was answered.
fn tally(answers: impl Iterator<Item = u32>) -> [usize; 11] {
    let mut often = [0; 11];
    answers.for_each(|number| often[number as usize] += 1);
    often
}

#[test]
fn small_limits_from_empty() {
    let answers = (1..=40).flat_map(|seed| {
        let mut random = Random::new(seed);
        let mut pair = Pair::empty((random.below(4_000) as usize, random.below(500) as usize));
        (0..150)
            .map(|_| pair.call(&mut random))
            .collect::<Vec<u32>>()
    });
    let often = tally(answers);
    assert!(
        often[0] > 2_000 && often[6] > 20 && often[7] > 200,
        "{often:?}"
    );
}

#[test]
fn the_full_size_from_many_nodes() {
    let answers = (1..=24).flat_map(|seed| {
        let mut random = Random::new(seed);
        let nodes = [40, 130, 500, 1_900, 3_000, 4_096][seed as usize % 6];
        let mut pair = Pair::laid(&mut random, nodes);
        pair.alike();
        (0..20)
            .map(|_| pair.call(&mut random))
            .collect::<Vec<u32>>()
    });
    let often = tally(answers);
    assert!(often[0] > 200 && often[7] > 20 && often[8] > 2, "{often:?}");
}

/// A list over a list and so on, over a variable that `normalize_vars` renumbers: it adds as many nodes as there are.
fn chain(limit: (usize, usize), nodes: u32) -> (TypeArena, TyRef) {
    let mut t = TypeArena::with_capacity(names(), limit.0, limit.1).unwrap();
    let root = (1..nodes).fold(var(&mut t, 5), |ty, _| list(&mut t, ty));
    (t, root)
}

#[test]
fn each_doubling() {
    let mut t = TypeArena::new(names());
    assert_eq!(t.lent(), (256, 64));
    for index in 0..300 {
        var(&mut t, index);
        assert_eq!(t.lent(), expected(t.words().len(), t.len(), FULL));
    }
    assert_eq!(t.lent(), (4_096, 1_024));
    for (nodes, starts) in [(1, 64), (32, 64), (33, 128), (1_024, 2_048), (1_025, 4_096)] {
        let t = TypeArena::from_nodes(names(), (0..nodes).map(OutputTy::TyVar)).unwrap();
        assert_eq!(t.lent(), (4 * starts, starts));
    }
}

/// 64 variables, a list of the first 40, so many lists of that one and two more variables, and a lambda for each.
fn nested(limit: (usize, usize), lists: u32) -> (Pair, u32) {
    let mut pair = Pair::empty(limit);
    let vars = (0..64).map(|index| vec![0x3000_0001, index]);
    vars.for_each(|words| assert!(pair.put(words) < 64));
    let first = pair.put([vec![0x7000_0028], (0..40).collect()].concat());
    let root = (0..lists).fold(first, |root, k| {
        let list = pair.put(vec![0x7000_0003, first, 40 + k % 5, 45 + k / 5]);
        pair.put(vec![0x5000_0002, root, list])
    });
    (pair, root)
}

/// `normalize_set_ops` by both, of an arena that is lent 2,048 words; what is lent afterwards.
fn flattened(mut pair: Pair, root: u32, answer: u32) -> (usize, usize) {
    assert_eq!(pair.grown.lent(), (2_048, 512));
    let before = pair.grown.clone();
    let flat = pair.grown.normalize_set_ops(TyRef::from_raw(root));
    let raw = pair.whole.change(ffi::lang_ty_normalize_set_ops, root);
    assert_eq!(raw.0, answer);
    assert_eq!(said(flat, |ty| [ty.into_raw(), 0]), raw);
    pair.alike();
    assert!(answer == 0 || untouched(&pair.grown, &before));
    pair.grown.lent()
}

#[test]
fn two_doublings_for_one_call() {
    // 255 nodes of 834 words; with the lists flat, 5,204 words.
    let lent = |limit, answer| {
        let (pair, root) = nested(limit, 95);
        assert_eq!((pair.grown.len(), pair.grown.words().len()), (255, 834));
        flattened(pair, root, answer)
    };
    assert_eq!(lent(FULL, 0), FULL, "half is free");
    assert_eq!(lent((5_204, 4_096), 0), (5_204, 4_096));
    assert_eq!(lent((5_203, 4_096), 7), (2_048, 512));
    // After them a list of 65 different members: 8, once there is room to come so far.
    let (mut pair, root) = nested(FULL, 94);
    let many = [64].into_iter().chain(40..64).chain([root]);
    let many = pair.put([0x7000_001a].into_iter().chain(many).collect());
    let root = pair.put(vec![0x5000_0002, root, many]);
    assert_eq!(flattened(pair, root, 8), (2_048, 512));
}

#[test]
fn a_call_that_lacks_starts_alone() {
    // Lists over (b & b | a | b) & int, which three passes change, and all lists above with it: 32 nodes become 107.
    let mut pair = Pair::empty(FULL);
    let bodies: [&[u32]; 8] = [
        &[0x3000_0001, 0],
        &[0x3000_0001, 1],
        &[0x8000_0002, 1, 1],
        &[0x7000_0002, 0, 2],
        &[0x2000_0001, 2],
        &[0x7000_0002, 0, 1],
        &[0x7000_0002, 2, 5],
        &[0x8000_0002, 6, 4],
    ];
    for words in bodies {
        pair.put(words.to_vec());
    }
    let root = (8..32).fold(7, |root, _| pair.put(vec![0x4000_0001, root]));
    assert_eq!((pair.grown.len(), pair.grown.lent()), (32, (256, 64)));
    let done = pair.grown.simplify(TyRef::from_raw(root)).unwrap();
    let raw = pair.whole.simplify(root);
    assert_eq!((0, [done.root.into_raw(), done.passes]), raw);
    pair.alike();
    assert_eq!((pair.grown.len(), done.passes), (107, 4));
    assert!(pair.grown.words().len() < 256);
}

#[test]
fn no_room_at_the_limit() {
    // 60 nodes of 120 words become 120 nodes of 240: that is the limit, or one over it.
    for (limit, refused) in [((240, 120), 0), ((239, 120), 7), ((240, 119), 7)] {
        let (mut t, root) = chain(limit, 60);
        let before = t.clone();
        let reply = t.normalize_vars(root);
        assert_eq!(reply.map_or_else(Refusal::number, |_| 0), refused);
        assert!(refused == 0 || untouched(&t, &before));
    }
    let seven = |t: &mut TypeArena, node| {
        let before = t.clone();
        assert_eq!(t.intern(node).map_err(Refusal::number), Err(7));
        assert!(untouched(t, &before) && t.lent() == FULL);
    };
    let mut starts = TypeArena::from_nodes(names(), (0..4_096).map(OutputTy::TyVar)).unwrap();
    seven(&mut starts, OutputTy::Top);
    assert_eq!(starts.intern(OutputTy::TyVar(7)), Ok(TyRef::from_raw(7)));
    // 64 variables and 250 lists of 64 members leave six words.
    let at = TyRef::from_raw;
    let wide = |k: u32| OutputTy::Union([vec![at(k % 64), at(k / 64)], vec![at(0); 62]].concat());
    let nodes = (0..64).map(OutputTy::TyVar).chain((0..250).map(wide));
    let mut words = TypeArena::from_nodes(names(), nodes).unwrap();
    assert_eq!(words.words().len(), ffi::WORDS - 6);
    seven(&mut words, OutputTy::Union(vec![at(0); 6]));
    words.intern(OutputTy::Union(vec![at(0); 5])).unwrap();
}

#[test]
fn the_target_of_compact_is_lent_what_it_needs() {
    let (large, large_root) = chain(FULL, 200);
    let (small, small_root) = chain(FULL, 3);
    let mut target = TypeArena::new(names());
    assert_eq!(large.compact_into(large_root, &mut target), Ok(large_root));
    assert!(target == large && target.lent() == (2_048, 512));
    // A root that isn't there: the larger target is left as it was.
    let none = TyRef::from_raw(3);
    assert_eq!(
        small
            .compact_into(none, &mut target)
            .map_err(Refusal::number),
        Err(6)
    );
    assert!(target == large && target.lent() == (2_048, 512));
    assert_eq!(small.compact_into(small_root, &mut target), Ok(small_root));
    assert!(target == small && target.lent() == (256, 64));
    let part = large.compact(TyRef::from_raw(2)).unwrap().0;
    assert!(part == small && part.lent() == (256, 64));
    // A target that may not grow far enough is left empty.
    let mut narrow = TypeArena::with_capacity(names(), 399, 200).unwrap();
    assert_eq!(
        large
            .compact_into(large_root, &mut narrow)
            .map_err(Refusal::number),
        Err(7)
    );
    assert!(narrow.is_empty() && narrow.lent() == (256, 64));
    let mut exact = TypeArena::with_capacity(names(), 400, 200).unwrap();
    assert_eq!(large.compact_into(large_root, &mut exact), Ok(large_root));
    assert!(exact == large);
}

/// Imports a type into an arena that may grow to a limit; what it is lent afterwards, or the refusal.
fn lent_after(
    limit: (usize, usize),
    source: &TypeArena,
    root: TyRef,
) -> Result<(usize, usize), u32> {
    let mut target = TypeArena::with_capacity(names(), limit.0, limit.1).unwrap();
    var(&mut target, 0);
    let before = target.clone();
    let imported = import_from_arena(&mut target, source, root);
    assert!(imported.is_ok() || untouched(&target, &before));
    imported.map_err(Refusal::number)?;
    assert_eq!(target.len(), source.len() + 1, "the variable is another");
    Ok(target.lent())
}

#[test]
fn the_target_of_an_import_is_lent_what_it_needs() {
    let (large, root) = chain(FULL, 200);
    let (small, small_root) = chain(FULL, 3);
    assert_eq!(lent_after(FULL, &small, small_root), Ok((256, 64)));
    assert_eq!(lent_after(FULL, &large, root), Ok((2_048, 512)));
    // 201 nodes of 402 words: that is the limit, or one over it.
    assert_eq!(lent_after((402, 201), &large, root), Ok((402, 201)));
    assert_eq!(lent_after((401, 201), &large, root), Err(7));
    assert_eq!(lent_after((402, 200), &large, root), Err(7));
    // A small type of a large arena, into a target that isn't far from its limit.
    let mut target = chain((406, 203), 200).0;
    let (mut source, _) = chain(FULL, 1_000);
    let a = var(&mut source, 0);
    let root = list(&mut source, a);
    assert_eq!(
        import_from_arena(&mut target, &source, root),
        Ok(TyRef::from_raw(201))
    );
    assert_eq!((target.len(), target.lent()), (202, (406, 203)));
}

#[test]
fn equal_whatever_is_lent_and_allowed() {
    let limits = [FULL, (0, 0), (10, 3), (4_000, 64)];
    let empty = limits.map(|(words, nodes)| TypeArena::with_capacity(names(), words, nodes));
    assert!(empty.windows(2).all(|two| two[0] == two[1]));
    let (large, small) = (chain(FULL, 60).0, chain((120, 60), 60).0);
    assert!(large == small && large.lent() != small.lent());
    assert!(large == large.clone());
}

#[test]
fn unequal_by_names_or_nodes() {
    let of = |names: &[&str], nodes: &[OutputTy]| {
        TypeArena::from_nodes(Names::new(names).unwrap(), nodes.to_vec()).unwrap()
    };
    let named = |name: &str| OutputTy::Named(name.into(), TyRef::from_raw(0));
    let one = of(&["p"], &[OutputTy::Top, named("p")]);
    let renamed = of(&["q"], &[OutputTy::Top, named("q")]);
    assert!(one.words() == renamed.words() && one != renamed);
    assert!(one != of(&["p", "q"], &[OutputTy::Top, named("p")]));
    assert!(one != of(&["p"], &[OutputTy::Bottom, named("p")]));
    assert!(one != of(&["p"], &[OutputTy::Top]));
    assert!(one != of(&["p"], &[OutputTy::Top, named("p"), OutputTy::Bottom]));
}
