//! An arena of our own nodes that grows as the Rust's does and notes the first refusal met. It goes on
//! after one, as the Rust would, so that the two can always be held side by side.

use std::collections::HashMap;

use crate::node::Node;

/// How many words and starts are lent.
#[derive(Clone, Copy)]
pub struct Lent {
    pub words: usize,
    pub starts: usize,
}

pub struct Limited {
    pub nodes: Vec<Node>,
    pub refused: Option<u8>,
    numbers: HashMap<Node, u32>,
    words: usize,
    lent: Lent,
}

impl Limited {
    pub fn holding(nodes: &[Node], lent: Lent) -> Limited {
        let mut arena = Limited {
            nodes: Vec::new(),
            refused: None,
            numbers: HashMap::new(),
            words: 0,
            lent,
        };
        for node in nodes {
            arena.intern(node.clone());
        }
        arena
    }

    pub fn node(&self, number: u32) -> &Node {
        &self.nodes[number as usize]
    }

    pub fn meet(&mut self, refusal: u8) {
        self.refused.get_or_insert(refusal);
    }

    pub fn intern(&mut self, node: Node) -> u32 {
        if let Some(&number) = self.numbers.get(&node) {
            return number;
        }
        let number = self.nodes.len() as u32;
        self.words += node.size();
        self.numbers.insert(node.clone(), number);
        self.nodes.push(node);
        if self.nodes.len() > self.lent.starts || self.words > self.lent.words {
            self.meet(7);
        }
        number
    }
}
