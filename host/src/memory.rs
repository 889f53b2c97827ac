//! An arena's memory and the calls that it is lent to. All `unsafe` of this crate stands here, and for one reason: each
//! pointer comes from a slice, an array or a number that lives and is borrowed through the call, to be written only where
//! the borrow is mutable, and each length is that slice's. So no pointer is null, nothing that is written overlaps
//! another argument, and all of it is initialised. The library keeps no pointer, and no call of it unwinds.

use crate::ffi;
use crate::{Names, Refusal};

type Reply<T> = Result<T, Refusal>;

/// How many words and starts an arena is lent at first: next to nothing beside what a call does anyway, and enough for a
/// type of 32 nodes with half of it free (docs/HOST.md has the measurement). Both reach the full size by six doublings.
const FIRST: (usize, usize) = (256, 64);

/// Lent words and starts with their counters, and the name table that goes with them. What is lent doubles when a call
/// finds no room, up to the limit, so that each answer is that of an arena that is lent all of the limit at once. How much
/// it is depends on the nodes and the limit alone (`fit`), and not on how they came to be.
#[derive(Clone)]
pub(crate) struct Memory {
    pub names: Names,
    limit: (usize, usize),
    words: Vec<u32>,
    starts: Vec<u32>,
    nodes: usize,
    used: usize,
}

/// Names and nodes alone count. Where each node starts follows from the words, and past them are zeros.
impl PartialEq for Memory {
    fn eq(&self, other: &Memory) -> bool {
        self.names == other.names && self.words() == other.words()
    }
}

impl Eq for Memory {}

/// The calls that ask a number about a root.
#[derive(Clone, Copy)]
pub(crate) enum Question {
    CountReachable,
    UnwrapNamed,
    HasTypeVars,
    NeedsVarNormalization,
    ContainsBareTyvar,
    HasSharedTyvar,
}

/// The calls that make another type of a root.
#[derive(Clone, Copy)]
pub(crate) enum Change {
    Vars,
    ReplacingUnknown,
    SetOps,
}

/// The calls that write into lent bytes.
#[derive(Clone, Copy)]
pub(crate) enum Writing {
    Display,
    DisplayNix,
    Sheet,
}

impl Memory {
    /// An empty arena that may grow to so many words and starts; 2 if they are over the full size.
    pub fn new(names: Names, limit: (usize, usize)) -> Reply<Memory> {
        if limit.0 > ffi::WORDS || limit.1 > ffi::STARTS {
            return Err(Refusal::ARENA);
        }
        let mut memory = Memory {
            names,
            limit,
            words: Vec::new(),
            starts: Vec::new(),
            nodes: 0,
            used: 0,
        };
        memory.fit();
        Ok(memory)
    }

    pub fn nodes(&self) -> usize {
        self.nodes
    }

    /// The most words and starts that it may have.
    pub fn limit(&self) -> (usize, usize) {
        self.limit
    }

    /// How many words and starts the calls are lent, used or not.
    pub fn lent(&self) -> (usize, usize) {
        (self.words.len(), self.starts.len())
    }

    /// Lends so many words and starts, but no more than the limit. All past the nodes are zeros, before and after.
    fn lend(&mut self, (words, starts): (usize, usize)) {
        self.words.resize(words.min(self.limit.0), 0);
        self.starts.resize(starts.min(self.limit.1), 0);
    }

    /// Lends what comes first, doubled until half is free: a call mostly adds no more nodes than there are, and one that
    /// finds no room has worked in vain.
    fn fit(&mut self) {
        let (mut words, mut starts) = FIRST;
        while words < 2 * self.used || starts < 2 * self.nodes {
            (words, starts) = (2 * words, 2 * starts);
        }
        self.lend((words, starts));
        self.words.shrink_to_fit();
        self.starts.shrink_to_fit();
    }

    /// Asks a call, and while there is no room for it again with twice as much lent, until all of the limit is. What a
    /// refused call leaves is as it was, so each try begins alike.
    pub fn growing<T>(&mut self, call: impl Fn(&mut Memory) -> Reply<T>) -> Reply<T> {
        let mut reply = call(self);
        while matches!(reply, Err(Refusal::ROOM)) && self.lent() != self.limit {
            let (words, starts) = self.lent();
            self.lend((2 * words, 2 * starts));
            reply = call(self);
        }
        self.fit();
        reply
    }

    /// The words of all nodes.
    pub fn words(&self) -> &[u32] {
        &self.words[..self.used]
    }

    /// The words of a node, or none if it isn't there.
    pub fn node(&self, number: u32) -> Option<&[u32]> {
        let starts = &self.starts[..self.nodes];
        let start = *starts.get(number as usize)? as usize;
        let after = starts.get(number as usize + 1);
        let end = after.map_or(self.used, |&next| next as usize);
        Some(&self.words[start..end])
    }

    /// Puts words past the last node, and doesn't look at them; 7 if there is no room. `sound` must be asked afterwards.
    pub fn lay(&mut self, node: &[u32]) -> Reply<()> {
        let end = self.used + node.len();
        if self.nodes == self.starts.len() || end > self.words.len() {
            return Err(Refusal::ROOM);
        }
        self.words[self.used..end].copy_from_slice(node);
        self.starts[self.nodes] = self.used as u32;
        self.nodes += 1;
        self.used = end;
        Ok(())
    }

    /// 2 if the nodes that were laid are no arena. Every call judges that; this one is as good as another.
    pub fn sound(&self) -> Reply<()> {
        match self.ask(Question::CountReachable, 0) {
            Err(Refusal::ARENA) => Err(Refusal::ARENA),
            _ => Ok(()),
        }
    }

    pub fn intern(&mut self, node: &[u32]) -> Reply<u32> {
        let table = self.names.table();
        let mut number = 0;
        // SAFETY: see the head of this file.
        let answer = unsafe {
            ffi::lang_ty_intern(
                table.as_ptr(),
                table.len(),
                self.words.as_mut_ptr(),
                self.words.len(),
                self.starts.as_mut_ptr(),
                self.starts.len(),
                &mut self.nodes,
                &mut self.used,
                node.as_ptr(),
                node.len(),
                &mut number,
            )
        };
        Refusal::judge(answer).map(|()| number)
    }

    /// The root of the simplified type, and the passes made.
    pub fn simplify(&mut self, root: u32) -> Reply<(u32, u32)> {
        let table = self.names.table();
        let (mut root_after, mut passes) = (0, 0);
        // SAFETY: see the head of this file.
        let answer = unsafe {
            ffi::lang_ty_simplify(
                table.as_ptr(),
                table.len(),
                self.words.as_mut_ptr(),
                self.words.len(),
                self.starts.as_mut_ptr(),
                self.starts.len(),
                &mut self.nodes,
                &mut self.used,
                root,
                &mut root_after,
                &mut passes,
            )
        };
        Refusal::judge(answer).map(|()| (root_after, passes))
    }

    pub fn change(&mut self, change: Change, root: u32) -> Reply<u32> {
        let call = match change {
            Change::Vars => ffi::lang_ty_normalize_vars,
            Change::ReplacingUnknown => ffi::lang_ty_normalize_replacing_unknown,
            Change::SetOps => ffi::lang_ty_normalize_set_ops,
        };
        let table = self.names.table();
        let mut root_after = 0;
        // SAFETY: see the head of this file.
        let answer = unsafe {
            call(
                table.as_ptr(),
                table.len(),
                self.words.as_mut_ptr(),
                self.words.len(),
                self.starts.as_mut_ptr(),
                self.starts.len(),
                &mut self.nodes,
                &mut self.used,
                root,
                &mut root_after,
            )
        };
        Refusal::judge(answer).map(|()| root_after)
    }

    /// Copies the root's type into a target; the target's names are left to the caller. The target is lent as much as the
    /// source, and a copy needs no more: so one try is enough, which matters since each judges the source.
    pub fn compact(&self, root: u32, target: &mut Memory) -> Reply<u32> {
        let ((words, starts), (before, starts_before)) = (self.lent(), target.lent());
        target.lend((words.max(before), starts.max(starts_before)));
        let reply = self.copy(root, target);
        target.fit();
        reply
    }

    fn copy(&self, root: u32, target: &mut Memory) -> Reply<u32> {
        let table = self.names.table();
        let mut root_after = 0;
        // SAFETY: see the head of this file.
        let answer = unsafe {
            ffi::lang_ty_compact(
                table.as_ptr(),
                table.len(),
                self.words.as_ptr(),
                self.words.len(),
                self.starts.as_ptr(),
                self.starts.len(),
                self.nodes,
                self.used,
                root,
                target.words.as_mut_ptr(),
                target.words.len(),
                target.starts.as_mut_ptr(),
                target.starts.len(),
                &mut target.nodes,
                &mut target.used,
                &mut root_after,
            )
        };
        Refusal::judge(answer).map(|()| root_after)
    }

    /// Interns the type of a source's root here, where names are sought by their text. There is room for all of the source, and
    /// an import adds no more: so one try is enough, which matters since each judges both arenas.
    pub fn import(&mut self, source: &Memory, root: u32) -> Reply<u32> {
        self.lend((self.used + source.used, self.nodes + source.nodes));
        let reply = self.intern_all(source, root);
        self.fit();
        reply
    }

    fn intern_all(&mut self, source: &Memory, root: u32) -> Reply<u32> {
        let (table, target_table) = (source.names.table(), self.names.table());
        let mut root_after = 0;
        // SAFETY: see the head of this file.
        let answer = unsafe {
            ffi::lang_ty_import_from_arena(
                table.as_ptr(),
                table.len(),
                source.words.as_ptr(),
                source.words.len(),
                source.starts.as_ptr(),
                source.starts.len(),
                source.nodes,
                source.used,
                root,
                target_table.as_ptr(),
                target_table.len(),
                self.words.as_mut_ptr(),
                self.words.len(),
                self.starts.as_mut_ptr(),
                self.starts.len(),
                &mut self.nodes,
                &mut self.used,
                &mut root_after,
            )
        };
        Refusal::judge(answer).map(|()| root_after)
    }

    pub fn ask(&self, question: Question, root: u32) -> Reply<u32> {
        let call = match question {
            Question::CountReachable => ffi::lang_ty_count_reachable,
            Question::UnwrapNamed => ffi::lang_ty_unwrap_named,
            Question::HasTypeVars => ffi::lang_ty_has_type_vars,
            Question::NeedsVarNormalization => ffi::lang_ty_needs_var_normalization,
            Question::ContainsBareTyvar => ffi::lang_ty_contains_bare_tyvar,
            Question::HasSharedTyvar => ffi::lang_ty_has_shared_tyvar_across_lambda_params,
        };
        let table = self.names.table();
        let mut told = 0;
        // SAFETY: see the head of this file.
        let answer = unsafe {
            call(
                table.as_ptr(),
                table.len(),
                self.words.as_ptr(),
                self.words.len(),
                self.starts.as_ptr(),
                self.starts.len(),
                self.nodes,
                self.used,
                root,
                &mut told,
            )
        };
        Refusal::judge(answer).map(|()| told)
    }

    /// One of `ffi::LESS`, `ffi::EQUAL` and `ffi::GREATER`.
    pub fn compare(&self, left: u32, right: u32) -> Reply<u32> {
        let table = self.names.table();
        let mut order = 0;
        // SAFETY: see the head of this file.
        let answer = unsafe {
            ffi::lang_ty_compare(
                table.as_ptr(),
                table.len(),
                self.words.as_ptr(),
                self.words.len(),
                self.starts.as_ptr(),
                self.starts.len(),
                self.nodes,
                self.used,
                left,
                right,
                &mut order,
            )
        };
        Refusal::judge(answer).map(|()| order)
    }

    pub fn free_type_vars(&self, root: u32) -> Reply<Vec<u32>> {
        let table = self.names.table();
        let mut vars = Box::new([0; ffi::VARS]);
        let mut count = 0;
        // SAFETY: see the head of this file.
        let answer = unsafe {
            ffi::lang_ty_free_type_vars(
                table.as_ptr(),
                table.len(),
                self.words.as_ptr(),
                self.words.len(),
                self.starts.as_ptr(),
                self.starts.len(),
                self.nodes,
                self.used,
                root,
                &mut *vars,
                &mut count,
            )
        };
        Refusal::judge(answer).map(|()| vars[..count].to_vec())
    }

    pub fn structurally_eq(&self, root: u32, other: &Memory, other_root: u32) -> Reply<bool> {
        let (table, other_table) = (self.names.table(), other.names.table());
        let mut is = 0;
        // SAFETY: see the head of this file.
        let answer = unsafe {
            ffi::lang_ty_structurally_eq(
                table.as_ptr(),
                table.len(),
                self.words.as_ptr(),
                self.words.len(),
                self.starts.as_ptr(),
                self.starts.len(),
                self.nodes,
                self.used,
                root,
                other_table.as_ptr(),
                other_table.len(),
                other.words.as_ptr(),
                other.words.len(),
                other.starts.as_ptr(),
                other.starts.len(),
                other.nodes,
                other.used,
                other_root,
                &mut is,
            )
        };
        Refusal::judge(answer).map(|()| is == 1)
    }

    /// Whether the fix of these words fits the root's type.
    pub fn fits(&self, root: u32, fix: &[u32]) -> Reply<bool> {
        let table = self.names.table();
        let mut is = 0;
        // SAFETY: see the head of this file.
        let answer = unsafe {
            ffi::lang_ty_fits(
                table.as_ptr(),
                table.len(),
                self.words.as_ptr(),
                self.words.len(),
                self.starts.as_ptr(),
                self.starts.len(),
                self.nodes,
                self.used,
                root,
                fix.as_ptr(),
                fix.len(),
                &mut is,
            )
        };
        Refusal::judge(answer).map(|()| is == 1)
    }

    /// How many bytes were written.
    pub fn write(&self, writing: Writing, root: u32, bytes: &mut [u8]) -> Reply<usize> {
        let call = match writing {
            Writing::Display => ffi::lang_ty_display,
            Writing::DisplayNix => ffi::lang_ty_display_nix,
            Writing::Sheet => ffi::lang_ty_write_sheet,
        };
        let table = self.names.table();
        let mut length = 0;
        // SAFETY: see the head of this file.
        let answer = unsafe {
            call(
                table.as_ptr(),
                table.len(),
                self.words.as_ptr(),
                self.words.len(),
                self.starts.as_ptr(),
                self.starts.len(),
                self.nodes,
                self.used,
                root,
                bytes.as_mut_ptr(),
                bytes.len(),
                &mut length,
            )
        };
        Refusal::judge(answer).map(|()| length)
    }
}

/// How many names the table has.
pub(crate) fn check_names(table: &[u8]) -> Reply<usize> {
    let mut count = 0;
    // SAFETY: see the head of this file.
    let answer = unsafe { ffi::lang_ty_check_names(table.as_ptr(), table.len(), &mut count) };
    Refusal::judge(answer).map(|()| count)
}

/// The number of the name that is the text, or how many names of the table come before the text.
pub(crate) fn find_name(table: &[u8], text: &[u8]) -> Reply<Result<u32, u32>> {
    let (mut found, mut place) = (0, 0);
    // SAFETY: see the head of this file.
    let answer = unsafe {
        ffi::lang_ty_find_name(
            table.as_ptr(),
            table.len(),
            text.as_ptr(),
            text.len(),
            &mut found,
            &mut place,
        )
    };
    Refusal::judge(answer).map(|()| if found == 1 { Ok(place) } else { Err(place) })
}

/// One of `ffi::LESS`, `ffi::EQUAL` and `ffi::GREATER`. It is never refused.
pub(crate) fn compare_names(left: &[u8], right: &[u8]) -> u32 {
    let mut order = 0;
    // SAFETY: see the head of this file.
    unsafe {
        ffi::lang_ty_compare_names(
            left.as_ptr(),
            left.len(),
            right.as_ptr(),
            right.len(),
            &mut order,
        );
    }
    order
}

/// The text of a variable. It is never refused.
pub(crate) fn tyvar_name(index: u32) -> Vec<u8> {
    let mut text = [0; ffi::TYVAR_NAME];
    let mut length = 0;
    // SAFETY: see the head of this file.
    unsafe { ffi::lang_ty_tyvar_name(index, &mut text, &mut length) };
    text[..length].to_vec()
}

/// The line of a sheet. It is never refused: the line of a refused sheet says so.
pub(crate) fn sheet_line(sheet: &[u8]) -> Vec<u8> {
    let mut line = Box::new([0; ffi::LINE]);
    let mut length = 0;
    // SAFETY: see the head of this file.
    unsafe { ffi::lang_ty_sheet_line(sheet.as_ptr(), sheet.len(), &mut *line, &mut length) };
    line[..length].to_vec()
}

pub(crate) fn convert_sheet(sheet: &mut [u8]) -> Reply<()> {
    // SAFETY: see the head of this file.
    let answer = unsafe { ffi::lang_ty_convert_sheet(sheet.as_mut_ptr(), sheet.len()) };
    Refusal::judge(answer)
}
