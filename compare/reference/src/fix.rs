//! A fix, and whether it fits a type: request A5 of document 02. The Rust has no such question.

use std::collections::{BTreeMap, HashMap};

use crate::layout::{CHILD, NEW};
use crate::node::{Field, Node};
use crate::Reply;

/// Most values of a fix.
pub const VALUES: usize = 1_024;

#[derive(Clone, Debug, PartialEq, Eq)]
pub enum Value {
    /// null, bool, int, float, string or path, by the number of its kind, which is the code of the primitive of that name.
    Plain(u32),
    List(Vec<u32>),
    Set(BTreeMap<u16, u32>),
}

impl Value {
    /// The value of these words, behind so many others; none if they break the layout.
    fn of(head: u32, body: &[u32], earlier: usize, names: usize) -> Option<Value> {
        let known = |child: u32| (child as usize) < earlier;
        if head >> 16 & 0xfff != 0 {
            return None;
        }
        match head >> 28 {
            kind @ 0..=5 => body.is_empty().then_some(Value::Plain(kind)),
            6 => {
                let good = |&word: &u32| word >> CHILD == 0 && known(word);
                body.iter().all(good).then(|| Value::List(body.to_vec()))
            }
            7 => {
                let fields: Vec<Field> = body.iter().map(|&word| NEW.field(word)).collect();
                let clear = body.iter().all(|word| word & NEW.zero() == 0);
                let good = |f: &Field| !f.optional && usize::from(f.name) < names && known(f.child);
                let rise = fields.windows(2).all(|two| two[0].name < two[1].name);
                let set = || fields.iter().map(|f| (f.name, f.child)).collect();
                (clear && rise && fields.iter().all(good)).then(|| Value::Set(set()))
            }
            _ => None,
        }
    }

    pub fn encode(&self) -> Vec<u32> {
        let (kind, body) = match self {
            Value::Plain(kind) => (*kind, vec![]),
            Value::List(elements) => (6, elements.clone()),
            Value::Set(fields) => {
                let word = |(&name, &child): (&u16, &u32)| u32::from(name) << NEW.lowest | child;
                (7, fields.iter().map(word).collect())
            }
        };
        [vec![kind << 28 | body.len() as u32], body].concat()
    }
}

/// The values that the words are, the last of them the fix, under a table of so many names; or 13.
pub fn decode(mut words: &[u32], names: usize) -> Reply<Vec<Value>> {
    let mut values = Vec::new();
    while let Some((&head, rest)) = words.split_first() {
        let count = (head & 0xffff) as usize;
        let (body, rest) = rest.split_at_checked(count).ok_or(13)?;
        values.push(Value::of(head, body, values.len(), names).ok_or(13)?);
        words = rest;
    }
    if !(1..=VALUES).contains(&values.len()) {
        return Err(13);
    }
    Ok(values)
}

/// Whether the last of the values fits the type, in which there is no variable.
pub fn fits(nodes: &[Node], root: u32, values: &[Value]) -> bool {
    let mut pairs = Pairs {
        nodes,
        values,
        known: HashMap::new(),
    };
    pairs.fits(root, values.len() as u32 - 1)
}

struct Pairs<'a> {
    nodes: &'a [Node],
    values: &'a [Value],
    known: HashMap<(u32, u32), bool>,
}

impl Pairs<'_> {
    fn fits(&mut self, ty: u32, value: u32) -> bool {
        if let Some(&known) = self.known.get(&(ty, value)) {
            return known;
        }
        let fits = match (&self.nodes[ty as usize], &self.values[value as usize]) {
            (Node::TyVar(_), _) => panic!("a variable"),
            (Node::Top, _) => true,
            (Node::Bottom | Node::Lambda(..), _) => false,
            (Node::Named(_, inner), _) => self.fits(*inner, value),
            (Node::Neg(inner), _) => !self.fits(*inner, value),
            (Node::Union(members), _) => members.iter().any(|&m| self.fits(m, value)),
            (Node::Intersection(members), _) => members.iter().all(|&m| self.fits(m, value)),
            (Node::Primitive(code), Value::Plain(kind)) => takes(*code).contains(kind),
            (Node::List(of), Value::List(elements)) => elements.iter().all(|&e| self.fits(*of, e)),
            (Node::AttrSet(fields, dynamic, open), Value::Set(given)) => {
                self.set_fits(fields, *dynamic, *open, given)
            }
            (Node::Primitive(_) | Node::List(_) | Node::AttrSet(..), _) => false,
        };
        self.known.insert((ty, value), fits);
        fits
    }

    fn set_fits(
        &mut self,
        fields: &[Field],
        dynamic: Option<u32>,
        open: bool,
        given: &BTreeMap<u16, u32>,
    ) -> bool {
        let there = |f: &Field| f.optional || given.contains_key(&f.name);
        let own = |name: u16| fields.iter().find(|f| f.name == name).map(|f| f.child);
        let mut taken = |(&name, &value): (&u16, &u32)| match own(name).or(dynamic) {
            Some(ty) => self.fits(ty, value),
            None => open,
        };
        fields.iter().all(there) && given.iter().all(&mut taken)
    }
}

/// The kinds of values that a primitive takes.
fn takes(code: u32) -> &'static [u32] {
    const INT: u32 = 2;
    const FLOAT: u32 = 3;
    const STRING: u32 = 4;
    match code {
        0 => &[0],
        1 => &[1],
        2 => &[INT],
        3 => &[FLOAT],
        4 => &[STRING],
        5 => &[5],
        6 => &[STRING],
        7 => &[INT, FLOAT],
        _ => unreachable!("no such primitive"),
    }
}

#[cfg(test)]
mod tests {
    use super::*;

    const INT: u32 = 0x2000_0000;
    const LIST: u32 = 0x6000_0000;
    const SET: u32 = 0x7000_0000;

    /// Under three names.
    fn refused(words: &[u32]) {
        assert_eq!(decode(words, 3), Err(13), "{words:x?}");
    }

    #[test]
    fn layout() {
        let set = Value::Set(BTreeMap::from([(0, 1), (2, 0)]));
        let values = [Value::Plain(2), Value::List(vec![0, 0]), set];
        let words = [INT, LIST + 2, 0, 0, SET + 2, 1, 2 << 15];
        assert_eq!(decode(&words, 3), Ok(values.to_vec()));
        let again = values.iter().flat_map(Value::encode);
        assert_eq!(again.collect::<Vec<u32>>(), words);
        for kind in 0..=5 {
            assert_eq!(decode(&[kind << 28], 0), Ok(vec![Value::Plain(kind)]));
            refused(&[INT, kind << 28 | 1, 0]);
        }
        let ends = [1, 4, 7];
        for end in 0..words.len() {
            assert_eq!(decode(&words[..end], 3).is_ok(), ends.contains(&end));
        }
        assert_eq!(decode(&words, 2), Err(13), "name 2 of two");
    }

    #[test]
    fn faults_of_layout() {
        for kind in 8..16 {
            refused(&[kind << 28]);
        }
        for bit in 16..28 {
            refused(&[INT | 1 << bit]);
        }
        for bit in 12..32 {
            refused(&[INT, LIST + 1, 1 << bit]);
        }
        for bit in [12, 13, 14, 31] {
            refused(&[INT, SET + 1, 1 << bit]);
        }
        refused(&[LIST + 1, 0]);
        refused(&[INT, LIST + 1, 1]);
        refused(&[INT, SET + 1, 1]);
        refused(&[INT, SET + 2, 0, 0]);
        refused(&[INT, SET + 2, 1 << 15, 0]);
        refused(&[INT, SET + 1, 3 << 15]);
        // Nothing leads to the first of the two.
        refused(&[LIST + 1, 0, INT]);
    }

    #[test]
    fn limits() {
        let ints = |count| vec![INT; count];
        assert_eq!(decode(&[], 0), Err(13));
        assert_eq!(decode(&ints(1_024), 0).map(|values| values.len()), Ok(1024));
        assert_eq!(decode(&ints(1_025), 0), Err(13));
        let long = [vec![INT, LIST + 65_535], vec![0; 65_535]].concat();
        assert_eq!(decode(&long, 0).map(|values| values.len()), Ok(2));
        assert_eq!(decode(&long[..65_536], 0), Err(13));
    }

    /// Whether this value, behind an int (0), a string (1) and a list of them (2), fits the last of the nodes, which come behind
    /// `never`, `any`, all primitives (2 to 9), a list of ints (10) and one of any (11).
    fn takes_it(nodes: &[Node], value: Value) -> bool {
        let leaves = [Node::Bottom, Node::Top].into_iter();
        let leaves = leaves.chain((0..8).map(Node::Primitive));
        let leaves = leaves.chain([Node::List(4), Node::List(1)]);
        let all: Vec<Node> = leaves.chain(nodes.iter().cloned()).collect();
        let before = [Value::Plain(2), Value::Plain(4), Value::List(vec![0, 1])];
        fits(
            &all,
            all.len() as u32 - 1,
            &[&before[..], &[value]].concat(),
        )
    }

    /// Which of a value of each kind, lists and sets without any, a node takes.
    fn kinds(nodes: &[Node]) -> String {
        let plain = (0..6).map(Value::Plain);
        let empty = [Value::List(vec![]), Value::Set(BTreeMap::new())];
        let letters = plain.chain(empty).zip("nbifspls".chars());
        let taken = letters.filter(|(value, _)| takes_it(nodes, value.clone()));
        taken.map(|(_, letter)| letter).collect()
    }

    #[test]
    fn by_kind() {
        for (code, taken) in ["n", "b", "i", "f", "s", "p", "s", "if"].iter().enumerate() {
            assert_eq!(kinds(&[Node::Union(vec![2 + code as u32])]), *taken);
        }
        let open = Node::AttrSet(vec![], None, true);
        for (node, taken) in [
            (Node::Bottom, ""),
            (Node::Top, "nbifspls"),
            (Node::List(1), "l"),
            (Node::List(0), "l"),
            (Node::Lambda(1, 1), ""),
            (open.clone(), "s"),
            (Node::Union(vec![4, 0, 6]), "is"),
            (Node::Intersection(vec![4, 9, 1]), "i"),
            (Node::Intersection(vec![4, 5]), ""),
            (Node::Named(0, 9), "if"),
            (Node::Neg(9), "nbspls"),
            (Node::Neg(10), "nbifsps"),
        ] {
            assert_eq!(kinds(&[node.clone()]), taken, "{node:?}");
        }
        assert_eq!(kinds(&[Node::Neg(9), Node::Neg(12)]), "if");
        assert_eq!(kinds(&[open, Node::Neg(12)]), "nbifspl");
    }

    #[test]
    fn lists() {
        let takes =
            |of, elements: &[u32]| takes_it(&[Node::List(of)], Value::List(elements.into()));
        assert!(takes(4, &[]) && takes(4, &[0]) && takes(4, &[0, 0]));
        assert!(!takes(4, &[1]) && !takes(4, &[0, 1]) && !takes(4, &[1, 0]));
        assert!(takes(1, &[0, 1, 2]) && takes(11, &[2, 2]) && !takes(10, &[2]));
        assert!(takes(0, &[]) && !takes(0, &[0]));
    }

    #[test]
    fn sets() {
        // Name 0 an int, name 1 perhaps a string.
        let field = |optional, name, child| Field {
            optional,
            name,
            child,
        };
        let takes = |dynamic, open, given: &[(u16, u32)]| {
            let fields = vec![field(false, 0, 4), field(true, 1, 6)];
            let set = Value::Set(given.iter().copied().collect());
            takes_it(&[Node::AttrSet(fields, dynamic, open)], set)
        };
        for (dynamic, open) in [
            (None, false),
            (None, true),
            (Some(4), false),
            (Some(4), true),
        ] {
            assert!(takes(dynamic, open, &[(0, 0)]));
            assert!(takes(dynamic, open, &[(0, 0), (1, 1)]));
            assert!(!takes(dynamic, open, &[]), "name 0 lacks");
            assert!(!takes(dynamic, open, &[(1, 1)]), "name 0 lacks");
            assert!(!takes(dynamic, open, &[(0, 1)]), "name 0 is a string");
            assert!(!takes(dynamic, open, &[(0, 0), (1, 0)]), "name 1 is an int");
            let more = |value| takes(dynamic, open, &[(0, 0), (2, value)]);
            assert_eq!(more(0), open || dynamic.is_some());
            assert_eq!(more(1), open && dynamic.is_none());
        }
    }

    #[test]
    #[should_panic(expected = "a variable")]
    fn variables() {
        takes_it(&[Node::TyVar(0)], Value::Plain(0));
    }
}
