//! Ours, through the static library. The declarations are those of host/lang_ty.h.

use reference::memory::Memory;
use reference::node::Node;

use crate::side::{Answer, Operation, Side};

/// Declares calls that are lent a table, words and starts first.
macro_rules! declare {
    ($($name:ident($($more:ty),*);)*) => {
        extern "C" {
            $(fn $name(
                table: *const u8, table_len: usize,
                words: *mut u32, words_len: usize, starts: *mut u32, starts_len: usize,
                $(_: $more),*
            ) -> u32;)*
        }
    };
}

declare! {
    lang_ty_compare(usize, usize, u32, u32, *mut u32);
    lang_ty_count_reachable(usize, usize, u32, *mut u32);
    lang_ty_unwrap_named(usize, usize, u32, *mut u32);
    lang_ty_has_type_vars(usize, usize, u32, *mut u32);
    lang_ty_needs_var_normalization(usize, usize, u32, *mut u32);
    lang_ty_contains_bare_tyvar(usize, usize, u32, *mut u32);
    lang_ty_has_shared_tyvar_across_lambda_params(usize, usize, u32, *mut u32);
    lang_ty_free_type_vars(usize, usize, u32, *mut u32, *mut usize);
    lang_ty_structurally_eq(
        usize, usize, u32,
        *const u8, usize, *const u32, usize, *const u32, usize, usize, usize, u32, *mut u32);
    lang_ty_display(usize, usize, u32, *mut u8, usize, *mut usize);
    lang_ty_display_nix(usize, usize, u32, *mut u8, usize, *mut usize);
    lang_ty_intern(*mut usize, *mut usize, *const u32, usize, *mut u32);
    lang_ty_simplify(*mut usize, *mut usize, u32, *mut u32, *mut u32);
    lang_ty_normalize_vars(*mut usize, *mut usize, u32, *mut u32);
    lang_ty_normalize_replacing_unknown(*mut usize, *mut usize, u32, *mut u32);
    lang_ty_normalize_set_ops(*mut usize, *mut usize, u32, *mut u32);
    lang_ty_compact(
        usize, usize, u32,
        *mut u32, usize, *mut u32, usize, *mut usize, *mut usize, *mut u32);
    lang_ty_fits(usize, usize, u32, *const u32, usize, *mut u32);
    lang_ty_import_from_arena(
        usize, usize, u32,
        *const u8, usize, *mut u32, usize, *mut u32, usize, *mut usize, *mut usize, *mut u32);
}

/// An arena in lent memory.
#[derive(Clone)]
struct Arena {
    words: Vec<u32>,
    starts: Vec<u32>,
    nodes: usize,
    used: usize,
}

impl Arena {
    fn nodes(&self, names: usize) -> Vec<Node> {
        let memory = Memory {
            nodes: self.nodes as u32,
            used: self.used as u32,
            words: self.words.clone(),
            starts: self.starts.clone(),
        };
        memory.arena(names).expect("ours isn't sound")
    }

    /// Takes the nodes past a count back.
    fn cut(&mut self, nodes: usize, used: usize) {
        self.words[used..self.used].fill(0);
        self.starts[nodes..self.nodes].fill(0);
        (self.nodes, self.used) = (nodes, used);
    }
}

pub struct Ours {
    given: Vec<Node>,
    names: usize,
    root: u32,
    table: Vec<u8>,
    arena: Arena,
    /// The right side of `structurally_eq`.
    twin: Arena,
    /// Where `compact` copies to and `import_from_arena` imports.
    target: Arena,
    /// Counters at first.
    nodes: usize,
    used: usize,
    node: Vec<u32>,
    number: u32,
    passes: u32,
    vars: Vec<u32>,
    text: Vec<u8>,
    length: usize,
    fix: Vec<u32>,
}

impl Ours {
    /// The nodes in so many lent words and starts.
    pub fn holding(nodes: &[Node], names: &[String], root: u32, lent: (usize, usize)) -> Ours {
        let empty = Memory {
            words: vec![0; lent.0],
            starts: vec![0; lent.1],
            ..Memory::default()
        };
        let held = empty.holding(nodes);
        let arena = Arena {
            words: held.words,
            starts: held.starts,
            nodes: held.nodes as usize,
            used: held.used as usize,
        };
        let target = Arena {
            words: empty.words,
            starts: empty.starts,
            nodes: 0,
            used: 0,
        };
        let name = |n: &String| [&[n.len() as u8], n.as_bytes()].concat();
        Ours {
            given: nodes.to_vec(),
            names: names.len(),
            root,
            table: names.iter().flat_map(name).collect(),
            nodes: arena.nodes,
            used: arena.used,
            twin: arena.clone(),
            target,
            arena,
            node: vec![],
            number: 0,
            passes: 0,
            vars: vec![0; reference::NODES],
            text: vec![0; reference::TEXT],
            length: 0,
            fix: vec![],
        }
    }

    pub fn with_fix(self, fix: &[u32]) -> Ours {
        Ours {
            fix: fix.to_vec(),
            ..self
        }
    }
}

/// Calls with the table, the words and the starts lent, and what is said.
macro_rules! lend {
    ($ours:ident, $name:ident, $($more:expr),*) => {
        // SAFETY: every pointer is to memory of that length that lives through the call, and none that is written
        // overlaps another.
        unsafe {
            $name(
                $ours.table.as_ptr(),
                $ours.table.len(),
                $ours.arena.words.as_mut_ptr(),
                $ours.arena.words.len(),
                $ours.arena.starts.as_mut_ptr(),
                $ours.arena.starts.len(),
                $($more),*
            )
        }
    };
}

/// A call that reads an arena.
macro_rules! ask {
    ($ours:ident, $name:ident, $($more:expr),*) => {
        lend!($ours, $name, $ours.arena.nodes, $ours.arena.used, $ours.root, $($more),*)
    };
}

/// A call that changes the arena and gives a root.
macro_rules! change {
    ($ours:ident, $name:ident $(, $more:expr)*) => {
        lend!($ours, $name, &mut $ours.arena.nodes, &mut $ours.arena.used, $ours.root, &mut $ours.number $(, $more)*)
    };
}

impl Ours {
    fn read(&mut self, operation: Operation) -> u32 {
        let number = &raw mut self.number;
        match operation {
            Operation::UnwrapNamed => ask!(self, lang_ty_unwrap_named, number),
            Operation::Compare => ask!(self, lang_ty_compare, self.root, number),
            Operation::CountReachable => ask!(self, lang_ty_count_reachable, number),
            Operation::HasTypeVars => ask!(self, lang_ty_has_type_vars, number),
            Operation::NeedsVarNormalization => ask!(self, lang_ty_needs_var_normalization, number),
            Operation::ContainsBareTyvar => ask!(self, lang_ty_contains_bare_tyvar, number),
            Operation::HasSharedTyvar => {
                ask!(self, lang_ty_has_shared_tyvar_across_lambda_params, number)
            }
            Operation::FreeTypeVars => {
                let vars = self.vars.as_mut_ptr();
                ask!(self, lang_ty_free_type_vars, vars, &mut self.length)
            }
            Operation::StructurallyEq => self.equal(),
            Operation::Display | Operation::DisplayNix => {
                let print = match operation {
                    Operation::Display => lang_ty_display,
                    _ => lang_ty_display_nix,
                };
                let (text, room) = (self.text.as_mut_ptr(), self.text.len());
                ask!(self, print, text, room, &mut self.length)
            }
            Operation::Fits => {
                let (fix, count) = (self.fix.as_ptr(), self.fix.len());
                ask!(self, lang_ty_fits, fix, count, number)
            }
            Operation::Import | Operation::ImportStored => self.import(),
            _ => self.copy(),
        }
    }

    fn equal(&mut self) -> u32 {
        ask!(
            self,
            lang_ty_structurally_eq,
            self.table.as_ptr(),
            self.table.len(),
            self.twin.words.as_ptr(),
            self.twin.words.len(),
            self.twin.starts.as_ptr(),
            self.twin.starts.len(),
            self.twin.nodes,
            self.twin.used,
            self.root,
            &mut self.number
        )
    }

    fn copy(&mut self) -> u32 {
        ask!(
            self,
            lang_ty_compact,
            self.target.words.as_mut_ptr(),
            self.target.words.len(),
            self.target.starts.as_mut_ptr(),
            self.target.starts.len(),
            &mut self.target.nodes,
            &mut self.target.used,
            &mut self.number
        )
    }

    /// Both arenas have the same table.
    fn import(&mut self) -> u32 {
        let target = &mut self.target;
        ask!(
            self,
            lang_ty_import_from_arena,
            self.table.as_ptr(),
            self.table.len(),
            target.words.as_mut_ptr(),
            target.words.len(),
            target.starts.as_mut_ptr(),
            target.starts.len(),
            &mut target.nodes,
            &mut target.used,
            &mut self.number
        )
    }

    fn intern(&mut self) -> u32 {
        let (nodes, used) = (&raw mut self.arena.nodes, &raw mut self.arena.used);
        let (node, count) = (self.node.as_ptr(), self.node.len());
        lend!(
            self,
            lang_ty_intern,
            nodes,
            used,
            node,
            count,
            &mut self.number
        )
    }
}

#[no_mangle]
#[inline(never)]
fn ours_measured(ours: &mut Ours, operation: Operation) -> u32 {
    match operation {
        Operation::InternStored | Operation::InternNew => ours.intern(),
        Operation::Simplify => change!(ours, lang_ty_simplify, &mut ours.passes),
        Operation::NormalizeVars => change!(ours, lang_ty_normalize_vars),
        Operation::NormalizeReplacingUnknown => {
            change!(ours, lang_ty_normalize_replacing_unknown)
        }
        Operation::NormalizeSetOps => change!(ours, lang_ty_normalize_set_ops),
        _ => ours.read(operation),
    }
}

impl Side for Ours {
    type Made = u32;

    fn prepare(&mut self, operation: Operation, turn: usize) {
        self.arena.cut(self.nodes, self.used);
        if matches!(operation, Operation::Import | Operation::ImportStored) {
            self.target.cut(0, 0);
        }
        if operation == Operation::ImportStored {
            assert_eq!(self.import(), 0, "the first import was refused");
        }
        self.node = operation.node(&self.given, self.root, turn).encode();
    }

    fn call(&mut self, operation: Operation) -> u32 {
        ours_measured(self, operation)
    }

    fn outcome(&self, operation: Operation, refusal: u32) -> (Answer, Vec<Node>) {
        assert_eq!(refusal, 0, "ours refused {operation:?}");
        let answer = match operation {
            Operation::FreeTypeVars => Answer::Numbers(self.vars[..self.length].to_vec()),
            Operation::Display | Operation::DisplayNix => {
                let text = self.text[..self.length].to_vec();
                Answer::Text(String::from_utf8(text).unwrap())
            }
            Operation::Compact | Operation::Import | Operation::ImportStored => {
                Answer::Copy(self.number, self.target.nodes(self.names))
            }
            _ => Answer::Number(self.number),
        };
        (answer, self.arena.nodes(self.names))
    }
}
