//! The format of cases: see docs/COMPARISON.md. All integers have their most significant byte first.

use crate::memory::Memory;

/// What a host lends a call that reads: a name table and an arena.
#[derive(Clone, Debug, Default, PartialEq)]
pub struct Host {
    pub table: Vec<u8>,
    pub memory: Memory,
}

#[derive(Clone, Debug)]
pub enum Case {
    TyvarName(u32),
    Intern(Host, Vec<u32>),
    Order(Host, u32, u32),
    Simplify(Host, u32),
    Display(Host, u32, u32),
    Table(Vec<u8>),
    /// A table and the number of a name.
    NameAt(Vec<u8>, u32),
    /// A table and a text that is sought in it.
    FindName(Vec<u8>, Vec<u8>),
    Names(Vec<u8>, Vec<u8>),
    Sheet(Vec<u8>),
    /// An old sheet.
    Convert(Vec<u8>),
    /// A call that takes a type and nothing else; its number says which.
    OnType(u8, Host, u32),
    /// The arena to be copied from, the root, and the target.
    Compact(Host, u32, Memory),
    Equal((Host, u32), (Host, u32)),
    /// The source, the root there, and the target.
    Import(Host, u32, Host),
    WriteSheet(Host, u32, u32),
    DisplayNix(Host, u32, u32),
    /// A type, and the words of a fix.
    Fits(Host, u32, Vec<u32>),
}

/// The numbers of the operations, all that there are.
pub const OPS: [u8; 27] = [
    1, 2, 3, 4, 5, 6, 7, 8, 9, 10, 11, 12, 13, 14, 15, 16, 17, 18, 19, 20, 21, 22, 23, 24, 25, 26,
    27,
];

/// Cases are taken from the front.
pub struct Reader<'a>(pub &'a [u8]);

impl<'a> Reader<'a> {
    fn bytes(&mut self, count: usize) -> &'a [u8] {
        let (front, rest) = self.0.split_at_checked(count).expect("a case is cut short");
        self.0 = rest;
        front
    }

    fn number(&mut self, bytes: usize) -> usize {
        let bytes = self.bytes(bytes).iter();
        bytes.fold(0, |n, &b| n << 8 | usize::from(b))
    }

    fn word(&mut self) -> u32 {
        self.number(4) as u32
    }

    fn words(&mut self, width: usize) -> Vec<u32> {
        let count = self.number(width);
        (0..count).map(|_| self.word()).collect()
    }

    /// Words of which the last ones, all zero, are left out.
    fn lent(&mut self) -> Vec<u32> {
        let count = self.number(2);
        let mut words = self.words(2);
        assert!(words.len() <= count, "more words follow than are lent");
        words.resize(count, 0);
        words
    }

    fn text(&mut self, width: usize) -> Vec<u8> {
        let length = self.number(width);
        self.bytes(length).to_vec()
    }

    fn host(&mut self) -> Host {
        let table = self.text(4);
        let memory = self.memory();
        Host { table, memory }
    }

    fn memory(&mut self) -> Memory {
        let (nodes, used) = (self.word(), self.word());
        let (words, starts) = (self.lent(), self.lent());
        Memory {
            nodes,
            used,
            words,
            starts,
        }
    }
}

impl Iterator for Reader<'_> {
    type Item = Case;

    fn next(&mut self) -> Option<Case> {
        if self.0.is_empty() {
            return None;
        }
        Some(match self.number(1) {
            1 => Case::TyvarName(self.word()),
            2 => Case::Intern(self.host(), self.words(2)),
            3 => Case::Order(self.host(), self.word(), self.word()),
            4 => Case::Simplify(self.host(), self.word()),
            5 => Case::Display(self.host(), self.word(), self.word()),
            6 => Case::Table(self.text(4)),
            7 => Case::Names(self.text(1), self.text(1)),
            8 => Case::Sheet(self.text(4)),
            op @ (9..=17 | 20) => Case::OnType(op as u8, self.host(), self.word()),
            18 => Case::Compact(self.host(), self.word(), self.memory()),
            19 => Case::Equal((self.host(), self.word()), (self.host(), self.word())),
            21 => Case::WriteSheet(self.host(), self.word(), self.word()),
            22 => Case::NameAt(self.text(4), self.word()),
            23 => Case::DisplayNix(self.host(), self.word(), self.word()),
            24 => Case::Convert(self.text(4)),
            25 => Case::FindName(self.text(4), self.text(4)),
            26 => Case::Import(self.host(), self.word(), self.host()),
            27 => Case::Fits(self.host(), self.word(), self.words(4)),
            op => panic!("no operation {op}"),
        })
    }
}

#[derive(Default)]
struct Writer(Vec<u8>);

impl Writer {
    fn number(&mut self, number: usize, bytes: usize) {
        let all = (number as u64).to_be_bytes();
        assert!(all[..8 - bytes].iter().all(|&b| b == 0), "too large");
        self.0.extend(&all[8 - bytes..]);
    }

    fn word(&mut self, word: u32) {
        self.number(word as usize, 4)
    }

    fn words(&mut self, words: &[u32], width: usize) {
        self.number(words.len(), width);
        words.iter().for_each(|&w| self.word(w));
    }

    fn lent(&mut self, words: &[u32]) {
        self.number(words.len(), 2);
        self.words(without_zeros(words), 2);
    }

    fn text(&mut self, text: &[u8], width: usize) {
        self.number(text.len(), width);
        self.0.extend(text);
    }

    fn host(&mut self, host: &Host) {
        self.text(&host.table, 4);
        self.memory(&host.memory);
    }

    fn memory(&mut self, memory: &Memory) {
        self.word(memory.nodes);
        self.word(memory.used);
        self.lent(&memory.words);
        self.lent(&memory.starts);
    }
}

pub fn hex(bytes: &[u8]) -> String {
    bytes.iter().map(|b| format!("{b:02x}")).collect()
}

/// The words up to the last that isn't zero.
pub fn without_zeros(words: &[u32]) -> &[u32] {
    let last = words.iter().rposition(|&w| w != 0);
    &words[..last.map_or(0, |at| at + 1)]
}

impl Case {
    pub fn op(&self) -> u8 {
        match self {
            Case::TyvarName(_) => 1,
            Case::Intern(..) => 2,
            Case::Order(..) => 3,
            Case::Simplify(..) => 4,
            Case::Display(..) => 5,
            Case::Table(_) => 6,
            Case::Names(..) => 7,
            Case::Sheet(_) => 8,
            Case::OnType(op, ..) => *op,
            Case::Compact(..) => 18,
            Case::Equal(..) => 19,
            Case::WriteSheet(..) => 21,
            Case::NameAt(..) => 22,
            Case::DisplayNix(..) => 23,
            Case::Convert(_) => 24,
            Case::FindName(..) => 25,
            Case::Import(..) => 26,
            Case::Fits(..) => 27,
        }
    }

    pub fn write(&self) -> Vec<u8> {
        let mut to = Writer(vec![self.op()]);
        match self {
            Case::TyvarName(index) => to.word(*index),
            Case::Intern(host, node) => {
                to.host(host);
                to.words(node, 2);
            }
            Case::Order(host, first, second)
            | Case::Display(host, first, second)
            | Case::WriteSheet(host, first, second)
            | Case::DisplayNix(host, first, second) => {
                to.host(host);
                to.word(*first);
                to.word(*second);
            }
            Case::Simplify(host, root) | Case::OnType(_, host, root) => {
                to.host(host);
                to.word(*root);
            }
            Case::Compact(host, root, target) => {
                to.host(host);
                to.word(*root);
                to.memory(target);
            }
            Case::Equal(left, right) => {
                for (host, root) in [left, right] {
                    to.host(host);
                    to.word(*root);
                }
            }
            Case::Import(source, root, target) => {
                to.host(source);
                to.word(*root);
                to.host(target);
            }
            Case::Fits(host, root, fix) => {
                to.host(host);
                to.word(*root);
                to.words(fix, 4);
            }
            Case::NameAt(table, number) => {
                to.text(table, 4);
                to.word(*number);
            }
            Case::FindName(table, text) => {
                to.text(table, 4);
                to.text(text, 4);
            }
            Case::Names(left, right) => {
                to.text(left, 1);
                to.text(right, 1);
            }
            Case::Table(bytes) | Case::Sheet(bytes) | Case::Convert(bytes) => to.text(bytes, 4),
        }
        to.0
    }
}
