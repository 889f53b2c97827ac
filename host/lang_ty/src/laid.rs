use std::cmp::Ordering;

use coombtray::{ffi, layout};

use crate::index::{hash, Index};
use crate::library::{self, Change, Lent, Question, Room};
use crate::names::Names;
use crate::refusal::Refused;
use crate::words::{self, Numbers};
use crate::{stack, OutputTy, TyRef};

type Reply<T> = Result<T, Refused>;

/// The most words and starts that can be lent, and how many are lent at first where nodes may be added.
const FULL: (usize, usize) = (ffi::WORDS, ffi::STARTS);
const FIRST: (usize, usize) = (256, 64);

/// How many bytes are lent for a text at first. Most texts have fewer for each node; sharing makes some longer.
const TEXT_AT_LEAST: usize = 1024;
const TEXT_PER_NODE: usize = 16;

/// Nodes in the library's words, laid one after another as they come and judged by the next call, with the names that
/// stand in them.
#[derive(Clone, Default)]
pub(crate) struct Laid {
    words: Vec<u32>,
    starts: Vec<u32>,
    names: Names,
    index: Index,
    /// How many nodes the longest way down from each node meets, itself among them.
    levels: Vec<u32>,
    /// Where words stand that are fields.
    fields: Vec<u32>,
}

impl Laid {
    pub fn nodes(&self) -> u32 {
        self.starts.len() as u32
    }

    pub fn levels(&self, number: u32) -> u32 {
        self.levels.get(number as usize).copied().unwrap_or(0)
    }

    fn words_at(&self, start: usize) -> &[u32] {
        let count = layout::count(self.words[start]);
        &self.words[start..=start + count]
    }

    fn words_of(&self, number: u32) -> &[u32] {
        self.words_at(self.starts[number as usize] as usize)
    }

    /// The node with this number; `ty` names its children.
    pub fn node(&self, number: u32, ty: impl Fn(u32) -> TyRef) -> OutputTy {
        words::decode(self.words_of(number), &self.names, ty)
    }

    /// The number of a node, which is laid after the last if it isn't there. `child` gives its children's numbers.
    pub fn place(&mut self, node: &OutputTy, child: impl Fn(TyRef) -> Option<u32>) -> Reply<u32> {
        let start = self.words.len();
        let sought = self.write(node, &child).and_then(|()| self.seek(start));
        let found = match sought {
            Ok(Sought::New { hash }) => return Ok(self.take_in(start, hash)),
            Ok(Sought::There(number)) => Ok(number),
            Err(refused) => Err(refused),
        };
        self.words.truncate(start);
        found
    }

    /// Puts the node's words after the last; a refusal leaves some of them.
    fn write(&mut self, node: &OutputTy, child: &impl Fn(TyRef) -> Option<u32>) -> Reply<()> {
        let start = self.words.len();
        let written = self.encode(node, child);
        if written != Err(Refused::NAMES) {
            return written;
        }
        self.words.truncate(start);
        self.enter_names(node, child)?;
        self.encode(node, child)
    }

    fn encode(&mut self, node: &OutputTy, child: &impl Fn(TyRef) -> Option<u32>) -> Reply<()> {
        let names = &self.names;
        Numbers { names, child }.encode(node, &mut self.words)
    }

    /// Lets the names of a node enter the table, at their ranks, and gives those that were there their new ranks in all
    /// words. The node can't be there, so it isn't done where the node would be refused.
    fn enter_names(&mut self, node: &OutputTy, child: &impl Fn(TyRef) -> Option<u32>) -> Reply<()> {
        if node.children().any(|ty| child(ty).is_none()) {
            return Err(Refused::CHILD);
        }
        let length = 1 + node.children().count();
        if self.starts.len() == FULL.1 || self.words.len() + length > FULL.0 {
            return Err(Refused::ROOM);
        }
        let ranks = self.names.enter(words::names_in(node))?;
        let mut moved = ranks.iter().enumerate();
        if moved.any(|(before, &after)| before != after.into()) {
            for &at in &self.fields {
                words::rename(&mut self.words[at as usize], &ranks);
            }
        }
        Ok(())
    }

    /// Whether the node whose words begin here, after the last node, is there already; 7 if it isn't and has no room.
    fn seek(&self, start: usize) -> Reply<Sought> {
        let hash = self.hash_at(start);
        let same = |number| self.words_of(number) == &self.words[start..];
        if let Some(number) = self.index.find(hash, same) {
            return Ok(Sought::There(number));
        }
        if self.starts.len() == FULL.1 || self.words.len() > FULL.0 {
            return Err(Refused::ROOM);
        }
        Ok(Sought::New { hash })
    }

    fn hash_at(&self, start: usize) -> u32 {
        hash(words::lasting(self.words_at(start), &self.names))
    }

    /// Makes a node of the words that begin here.
    fn take_in(&mut self, start: usize, hash: u32) -> u32 {
        let number = self.nodes();
        if number == 0 {
            self.words.reserve(FIRST.0);
            self.starts.reserve(FIRST.1);
            self.levels.reserve(FIRST.1);
        }
        self.starts.push(start as u32);
        self.note(start, hash, number);
        number
    }

    /// Notes what rests on a node's words.
    fn note(&mut self, start: usize, hash: u32, number: u32) {
        let below = words::children(self.words_at(start)).map(|child| self.levels(child));
        let levels = 1 + below.max().unwrap_or(0);
        self.levels.push(levels);
        let body = start as u32 + 1;
        let fields = layout::fields(self.words[start]) as u32;
        self.fields.extend(body..body + fields);
        self.index.insert(hash, number);
    }

    /// What is lent for a call that only reads: the nodes up to the root, since a type has no others.
    fn lent(&self, root: u32) -> Lent<'_> {
        let nodes = self.starts.len().min(root as usize + 1);
        let end = self
            .starts
            .get(nodes)
            .map_or(self.words.len(), |&start| start as usize);
        Lent {
            table: self.names.table(),
            words: &self.words[..end],
            starts: &self.starts[..nodes],
        }
    }

    pub fn ask(&self, question: Question, root: u32) -> Reply<u32> {
        library::ask(self.lent(root), question, root)
    }

    pub fn free_type_vars(&self, root: u32) -> Reply<Vec<u32>> {
        let call = || library::free_type_vars(self.lent(root), root);
        stack::for_library(self.levels(root), call)
    }

    pub fn compare(&self, left: u32, right: u32) -> Reply<Ordering> {
        library::compare(self.lent(left.max(right)), left, right)
    }

    pub fn structurally_eq(&self, root: u32, other: &Laid, other_root: u32) -> Reply<bool> {
        let right = (other.lent(other_root), other_root);
        library::structurally_eq((self.lent(root), root), right)
    }

    pub fn display(&self, root: u32) -> Reply<String> {
        let guess = TEXT_AT_LEAST.max(TEXT_PER_NODE * self.starts.len());
        let mut text = vec![0; guess.min(ffi::TEXT)];
        let call = |text: &mut [u8]| library::display(self.lent(root), root, text);
        let written = stack::for_library(self.levels(root), || match call(&mut text) {
            Err(Refused::TEXT) if text.len() < ffi::TEXT => {
                text.resize(ffi::TEXT, 0);
                call(&mut text)
            }
            written => written,
        });
        text.truncate(written?);
        Ok(String::from_utf8(text).expect("a text has bytes 32 to 126"))
    }

    /// The type alone, under the same names.
    pub fn compact(&self, root: u32) -> Reply<(Laid, u32)> {
        let lent = self.lent(root);
        let mut copy = Laid {
            words: vec![0; lent.words.len()],
            starts: vec![0; lent.starts.len()],
            names: self.names.clone(),
            ..Laid::default()
        };
        let mut room = Room {
            words: &mut copy.words,
            starts: &mut copy.starts,
            nodes: 0,
            used: 0,
        };
        let call = || library::compact(lent, root, &mut room);
        let copied = stack::for_library(self.levels(root), call)?;
        let (nodes, used) = (room.nodes, room.used);
        copy.keep(nodes, used);
        Ok((copy, copied))
    }

    /// Gives back what isn't used, and notes the nodes that are new.
    fn keep(&mut self, nodes: usize, used: usize) {
        self.words.truncate(used);
        self.starts.truncate(nodes);
        for number in self.levels.len()..nodes {
            let start = self.starts[number] as usize;
            self.note(start, self.hash_at(start), number as u32);
        }
    }

    /// Makes another type of the root's; new nodes stand at the end. A call that finds no room is tried again with twice
    /// as much, until all that can be lent was.
    pub fn change(&mut self, change: Change, root: u32) -> Reply<u32> {
        let mut size = roomy(self.words.len(), self.starts.len());
        loop {
            let changed = self.change_within(size, change, root);
            if changed != Err(Refused::ROOM) || size == FULL {
                return changed;
            }
            size = twice(size);
        }
    }

    fn change_within(&mut self, size: (usize, usize), change: Change, root: u32) -> Reply<u32> {
        let (nodes, used, levels) = (self.starts.len(), self.words.len(), self.levels(root));
        self.words.resize(size.0, 0);
        self.starts.resize(size.1, 0);
        let mut room = Room {
            words: &mut self.words,
            starts: &mut self.starts,
            nodes,
            used,
        };
        let call = || library::change(change, self.names.table(), &mut room, root);
        let changed = stack::for_library(levels, call);
        let (nodes, used) = (room.nodes, room.used);
        self.keep(nodes, used);
        changed
    }
}

/// Whether a node is there, or what it hashes to.
enum Sought {
    There(u32),
    New { hash: u32 },
}

fn twice((words, starts): (usize, usize)) -> (usize, usize) {
    (FULL.0.min(2 * words), FULL.1.min(2 * starts))
}

/// What comes first, doubled until half is free: a call mostly adds no more nodes than there are.
fn roomy(words: usize, nodes: usize) -> (usize, usize) {
    let mut size = FIRST;
    while size != FULL && (size.0 < 2 * words || size.1 < 2 * nodes) {
        size = twice(size);
    }
    size
}
