//! Lent memory, and the arena that it holds.

use std::collections::HashSet;

use crate::layout::NEW;
use crate::node::{decode, Head, Node};
use crate::{Reply, NODES, WORDS};

#[derive(Clone, Debug, Default, PartialEq, Eq)]
pub struct Memory {
    pub nodes: u32,
    pub used: u32,
    pub words: Vec<u32>,
    pub starts: Vec<u32>,
}

impl Memory {
    /// The nodes of a sound arena, with a table of `names` names; or refusal 2.
    pub fn arena(&self, names: usize) -> Reply<Vec<Node>> {
        self.sound(names).ok_or(2)
    }

    fn sound(&self, names: usize) -> Option<Vec<Node>> {
        if self.words.len() > WORDS || self.starts.len() > NODES {
            return None;
        }
        let starts = self.starts.get(..self.nodes as usize)?;
        let words = self.words.get(..self.used as usize)?;
        let mut nodes = Vec::new();
        let mut seen = HashSet::new();
        let mut end = 0;
        for &start in starts {
            let head = *words.get(end)?;
            let next = end + 1 + Head::of(head).count;
            let node = words.get(end..next)?;
            if start as usize != end || !seen.insert(node) {
                return None;
            }
            nodes.push(decode(NEW, node, nodes.len(), names).ok()?);
            end = next;
        }
        let unused = self.words[end..].iter().chain(&self.starts[starts.len()..]);
        let clear = unused.copied().all(|w| w == 0);
        (end == words.len() && clear).then_some(nodes)
    }

    /// The same lent memory, holding these nodes.
    pub fn holding(&self, nodes: &[Node]) -> Memory {
        let mut memory = Memory {
            words: vec![0; self.words.len()],
            starts: vec![0; self.starts.len()],
            ..Memory::default()
        };
        for node in nodes {
            memory.push(&node.encode());
        }
        memory
    }

    /// Puts one more node's words at the end; there must be room.
    pub fn push(&mut self, node: &[u32]) {
        let (at, end) = (self.used as usize, self.used as usize + node.len());
        self.words[at..end].copy_from_slice(node);
        self.starts[self.nodes as usize] = self.used;
        self.nodes += 1;
        self.used = end as u32;
    }

    pub fn has_room(&self, node: &[u32]) -> bool {
        (self.nodes as usize) < self.starts.len()
            && self.used as usize + node.len() <= self.words.len()
    }
}

#[cfg(test)]
mod tests {
    use super::*;

    fn memory(nodes: u32, used: u32, words: &[u32], starts: &[u32]) -> Memory {
        let (words, starts) = (words.to_vec(), starts.to_vec());
        Memory {
            nodes,
            used,
            words,
            starts,
        }
    }

    #[test]
    fn soundness() {
        let words = [0x3000_0001, 5, 0x4000_0001, 0, 0];
        let starts = [0, 2, 0];
        let good = memory(2, 4, &words, &starts);
        assert_eq!(good.arena(0), Ok(vec![Node::TyVar(5), Node::List(0)]));
        assert_eq!(good.holding(&good.arena(0).unwrap()), good);
        let empty = Memory::default();
        assert_eq!(empty.arena(0), Ok(vec![]));

        let bad = |change: fn(&mut Memory)| {
            let mut memory = good.clone();
            change(&mut memory);
            assert_eq!(memory.arena(0), Err(2), "{memory:?}");
        };
        bad(|m| m.nodes = 1);
        bad(|m| m.nodes = 3);
        bad(|m| m.nodes = 4);
        bad(|m| m.used = 3);
        bad(|m| m.used = 5);
        bad(|m| m.used = u32::MAX);
        bad(|m| m.words[4] = 1);
        bad(|m| m.starts[2] = 1);
        bad(|m| m.starts[1] = 1);
        bad(|m| m.words[3] = 1);
        bad(|m| m.words[2..4].copy_from_slice(&[0x3000_0001, 5]));
        bad(|m| m.words.resize(WORDS + 1, 0));
        bad(|m| m.starts.resize(NODES + 1, 0));
    }
}
