//! A node, and its words.

use crate::layout::{Layout, CHILD, NEW};
use crate::{Reply, MEMBERS};

#[derive(Clone, Debug, PartialEq, Eq, Hash)]
pub struct Field {
    pub optional: bool,
    pub name: u16,
    pub child: u32,
}

#[derive(Clone, Debug, PartialEq, Eq, Hash)]
pub enum Node {
    Bottom,
    Top,
    Primitive(u32),
    TyVar(u32),
    List(u32),
    Lambda(u32, u32),
    AttrSet(Vec<Field>, Option<u32>, bool),
    Union(Vec<u32>),
    Intersection(Vec<u32>),
    Named(u16, u32),
    Neg(u32),
}

/// The fields of a head word.
#[derive(Clone, Copy)]
pub struct Head {
    pub kind: u32,
    pub open: bool,
    pub dynamic: bool,
    pub zero: u32,
    pub count: usize,
}

impl Head {
    pub fn of(word: u32) -> Head {
        Head {
            kind: word >> 28,
            open: word >> 27 & 1 == 1,
            dynamic: word >> 26 & 1 == 1,
            zero: word >> 16 & 0x3ff,
            count: (word & 0xffff) as usize,
        }
    }

    fn word(self) -> u32 {
        let flags = u32::from(self.open) << 27 | u32::from(self.dynamic) << 26;
        self.kind << 28 | flags | self.zero << 16 | self.count as u32
    }

    /// Whether the head alone is free of fault 3.
    pub fn fits(self) -> bool {
        let dynamic = usize::from(self.dynamic);
        let count = match self.kind {
            0 | 1 => self.count == 0,
            2 | 3 | 4 | 9 | 10 => self.count == 1,
            5 => self.count == 2,
            6 => (dynamic..=MEMBERS + dynamic).contains(&self.count),
            7 | 8 => (1..=MEMBERS).contains(&self.count),
            _ => false,
        };
        let flags = self.kind == 6 || !self.open && !self.dynamic;
        count && flags && self.zero == 0
    }

    /// How many words of the body, from its front, are field words.
    fn fields(self) -> usize {
        match self.kind {
            6 => self.count - usize::from(self.dynamic),
            9 => 1,
            _ => 0,
        }
    }

    /// Whether the body under this head is free of fault 3.
    fn body_fits(self, layout: Layout, body: &[u32]) -> bool {
        if self.kind == 2 {
            return body[0] <= 7;
        }
        if self.kind == 3 {
            return true;
        }
        let (fields, children) = body.split_at(self.fields());
        let required = self.kind == 6 || fields.iter().all(|w| w >> 31 == 0);
        required
            && fields.iter().all(|w| w & layout.zero() == 0)
            && children.iter().all(|w| w >> CHILD == 0)
    }
}

/// The node that the words are, in this layout, in an arena of `below` nodes and a table of `names` names; or its
/// refusal, any 3 before any 4 before 5.
pub fn decode(layout: Layout, words: &[u32], below: usize, names: usize) -> Reply<Node> {
    let (&head, body) = words.split_first().ok_or(3)?;
    let head = Head::of(head);
    if !head.fits() || head.count != body.len() || !head.body_fits(layout, body) {
        return Err(3);
    }
    let node = Node::of(layout, head, body);
    let far = |&child: &u32| child as usize >= below;
    let unknown = |&name: &u16| usize::from(name) >= names;
    if node.children().iter().any(far) || node.names().iter().any(unknown) {
        return Err(4);
    }
    if node.names().windows(2).any(|pair| pair[0] >= pair[1]) {
        return Err(5);
    }
    Ok(node)
}

impl Node {
    fn of(layout: Layout, head: Head, body: &[u32]) -> Node {
        match head.kind {
            0 => Node::Bottom,
            1 => Node::Top,
            2 => Node::Primitive(body[0]),
            3 => Node::TyVar(body[0]),
            4 => Node::List(body[0]),
            5 => Node::Lambda(body[0], body[1]),
            6 => {
                let (fields, dynamic) = body.split_at(head.fields());
                let fields = fields.iter().map(|&w| layout.field(w)).collect();
                Node::AttrSet(fields, dynamic.first().copied(), head.open)
            }
            7 => Node::Union(body.to_vec()),
            8 => Node::Intersection(body.to_vec()),
            9 => {
                let Field { name, child, .. } = layout.field(body[0]);
                Node::Named(name, child)
            }
            10 => Node::Neg(body[0]),
            _ => unreachable!("no such kind"),
        }
    }

    /// The node's words in the new layout.
    pub fn encode(&self) -> Vec<u32> {
        self.encode_in(NEW)
    }

    pub fn encode_in(&self, layout: Layout) -> Vec<u32> {
        let (mut open, mut dynamic) = (false, false);
        let (kind, body) = match self {
            Node::Bottom => (0, vec![]),
            Node::Top => (1, vec![]),
            Node::Primitive(code) => (2, vec![*code]),
            Node::TyVar(index) => (3, vec![*index]),
            Node::List(child) => (4, vec![*child]),
            Node::Lambda(param, body) => (5, vec![*param, *body]),
            Node::AttrSet(fields, child, is_open) => {
                (open, dynamic) = (*is_open, child.is_some());
                let fields = fields.iter().map(|f| layout.word(f));
                (6, fields.chain(*child).collect())
            }
            Node::Union(members) => (7, members.clone()),
            Node::Intersection(members) => (8, members.clone()),
            Node::Named(name, child) => {
                let field = Field {
                    optional: false,
                    name: *name,
                    child: *child,
                };
                (9, vec![layout.word(&field)])
            }
            Node::Neg(child) => (10, vec![*child]),
        };
        let head = Head {
            kind,
            open,
            dynamic,
            zero: 0,
            count: body.len(),
        };
        [vec![head.word()], body].concat()
    }

    /// How many words the node takes.
    pub fn size(&self) -> usize {
        let body = match self {
            Node::Primitive(_) | Node::TyVar(_) => 1,
            _ => self.children().len(),
        };
        1 + body
    }

    pub fn children(&self) -> Vec<u32> {
        match self {
            Node::Bottom | Node::Top | Node::Primitive(_) | Node::TyVar(_) => vec![],
            Node::List(child) | Node::Named(_, child) | Node::Neg(child) => vec![*child],
            Node::Lambda(param, body) => vec![*param, *body],
            Node::AttrSet(fields, dynamic, _) => {
                let fields = fields.iter().map(|f| f.child);
                fields.chain(*dynamic).collect()
            }
            Node::Union(members) | Node::Intersection(members) => members.clone(),
        }
    }

    /// The same node over other children; a list may get another number of them.
    pub fn with_children(&self, new: Vec<u32>) -> Node {
        let mut next = new.iter().copied();
        let mut child = || next.next().expect("as many children as before");
        match self {
            Node::Bottom | Node::Top | Node::Primitive(_) | Node::TyVar(_) => self.clone(),
            Node::List(_) => Node::List(child()),
            Node::Lambda(..) => Node::Lambda(child(), child()),
            Node::AttrSet(fields, dynamic, open) => {
                let over = |f: &Field| Field {
                    child: child(),
                    ..f.clone()
                };
                let fields = fields.iter().map(over).collect();
                Node::AttrSet(fields, dynamic.map(|_| child()), *open)
            }
            Node::Union(_) => Node::Union(new),
            Node::Intersection(_) => Node::Intersection(new),
            Node::Named(name, _) => Node::Named(*name, child()),
            Node::Neg(_) => Node::Neg(child()),
        }
    }

    pub fn names(&self) -> Vec<u16> {
        match self {
            Node::AttrSet(fields, _, _) => fields.iter().map(|f| f.name).collect(),
            Node::Named(name, _) => vec![*name],
            _ => vec![],
        }
    }
}

#[cfg(test)]
mod tests {
    use super::*;
    use crate::layout::OLD;

    /// 10 nodes below and 3 names.
    fn fault(words: &[u32]) -> u8 {
        decode(NEW, words, 10, 3).unwrap_err()
    }

    #[test]
    fn faults() {
        assert_eq!(fault(&[]), 3);
        assert_eq!(fault(&[0xb000_0000]), 3, "kind 11");
        assert_eq!(fault(&[0x0000_0001, 0]), 3, "never has no body");
        assert_eq!(fault(&[0x2000_0001, 8]), 3, "code 8");
        assert_eq!(fault(&[0x4001_0001, 0]), 3, "zero of the head");
        assert_eq!(fault(&[0x4800_0001, 0]), 3, "open outside kind 6");
        assert_eq!(fault(&[0x4000_0001, 0x1000]), 3, "zero of a child word");
        assert_eq!(fault(&[0x9000_0001, 0x8000_0000]), 3, "optional Named");
        assert_eq!(fault(&[0x6400_0000]), 3, "dynamic without a child");
        assert_eq!(fault(&[0x7000_0000]), 3, "no member");
        assert_eq!(fault(&[0x4000_0001]), 3, "a word short");
        assert_eq!(fault(&[0x4000_0001, 10]), 4, "child 10");
        assert_eq!(fault(&[0x9000_0001, 3 << 15]), 4, "name 3");
        assert_eq!(fault(&[0x6000_0002, 0, 0]), 5, "a name twice");
        assert_eq!(fault(&[0x6000_0003, 0x1000, 10, 0]), 3, "3 before 4 and 5");
        assert_eq!(fault(&[0x6000_0003, 1 << 15, 0, 10]), 4, "4 before 5");
        for bit in 12..15 {
            assert_eq!(fault(&[0x9000_0001, 1 << bit]), 3, "zero of a field");
        }
    }

    #[test]
    fn members() {
        let list = |n: u32| [vec![0x7000_0000 + n], vec![0; n as usize]].concat();
        assert!(decode(NEW, &list(64), 1, 0).is_ok());
        assert_eq!(decode(NEW, &list(65), 1, 0), Err(3));
        let set = |n: u32| -> Vec<u32> {
            let fields = (0..n).map(|i| i << 15);
            [0x6400_0001 + n]
                .into_iter()
                .chain(fields)
                .chain([0])
                .collect()
        };
        assert!(
            decode(NEW, &set(64), 1, 4096).is_ok(),
            "64 fields and a dynamic part"
        );
        assert_eq!(decode(NEW, &set(65), 1, 4096), Err(3));
    }

    #[test]
    fn encode_gives_the_words_back() {
        for words in [
            vec![0x0000_0000],
            vec![0x1000_0000],
            vec![0x2000_0001, 7],
            vec![0x3000_0001, u32::MAX],
            vec![0x5000_0002, 3, 9],
            vec![0x6c00_0003, 0x8000_0001, 1 << 15, 4],
            vec![0x8000_0002, 2, 2],
            vec![0x9000_0001, 2 << 15 | 5],
            vec![0xa000_0001, 5],
        ] {
            let node = decode(NEW, &words, 10, 3).unwrap();
            assert_eq!(node.encode(), words);
            assert_eq!(node.size(), words.len());
        }
    }
    /// A word that is a name in one layout is a fault in the other.
    #[test]
    fn the_layouts_differ() {
        let named = |layout, word| decode(layout, &[0x9000_0001, word], 10, 256);
        assert_eq!(named(NEW, 0x0000_8000), Ok(Node::Named(1, 0)));
        assert_eq!(named(OLD, 0x0000_8000), Err(3));
        assert_eq!(named(OLD, 0x0080_0000), Ok(Node::Named(1, 0)));
        assert_eq!(named(NEW, 0x0080_0000), Err(4), "name 256");
        assert_eq!(named(OLD, 0x7f80_0009), Ok(Node::Named(255, 9)));
        assert_eq!(
            Node::Named(255, 9).encode_in(OLD),
            [0x9000_0001, 0x7f80_0009]
        );
    }
}
