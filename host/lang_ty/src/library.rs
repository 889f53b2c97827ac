//! The calls of the library. All `unsafe` of this crate stands here, and for one reason: each pointer comes from a slice, an
//! array or a number that lives and is borrowed through the call, to be written only where the borrow is mutable, and each
//! length is that slice's. The library keeps no pointer, and no call of it unwinds.

use std::cmp::Ordering;

use coombtray::ffi;

use crate::refusal::Refused;

type Reply<T> = Result<T, Refused>;

/// An arena that is lent to be read: all of it is used.
#[derive(Clone, Copy)]
pub(crate) struct Lent<'a> {
    pub table: &'a [u8],
    pub words: &'a [u32],
    pub starts: &'a [u32],
}

/// An arena that is lent to be changed, with free room past its nodes.
pub(crate) struct Room<'a> {
    pub words: &'a mut [u32],
    pub starts: &'a mut [u32],
    pub nodes: usize,
    pub used: usize,
}

/// The calls that ask a number about a root.
#[derive(Clone, Copy)]
pub(crate) enum Question {
    UnwrapNamed,
    HasTypeVars,
    NeedsVarNormalization,
    ContainsBareTyvar,
    HasSharedTyvar,
}

/// The calls that make another type of a root.
#[derive(Clone, Copy)]
pub(crate) enum Change {
    Simplify,
    Vars,
    ReplacingUnknown,
    SetOps,
}

impl Question {
    pub fn name(self) -> &'static str {
        match self {
            Question::UnwrapNamed => "unwrap_named",
            Question::HasTypeVars => "has_type_vars",
            Question::NeedsVarNormalization => "needs_var_normalization",
            Question::ContainsBareTyvar => "contains_bare_tyvar",
            Question::HasSharedTyvar => "has_shared_tyvar_across_lambda_params",
        }
    }
}

impl Change {
    pub fn name(self) -> &'static str {
        match self {
            Change::Simplify => "simplify",
            Change::Vars => "normalize_vars",
            Change::ReplacingUnknown => "normalize_replacing_unknown",
            Change::SetOps => "normalize_set_ops",
        }
    }
}

/// Calls a function of the library with a lent arena and what comes after it.
macro_rules! reading {
    ($call:expr, $lent:expr, $($more:expr),+) => {{
        let Lent { table, words, starts } = $lent;
        // SAFETY: see the head of this file.
        let answer = unsafe {
            $call(
                table.as_ptr(), table.len(), words.as_ptr(), words.len(), starts.as_ptr(), starts.len(),
                starts.len(), words.len(), $($more),+
            )
        };
        Refused::judge(answer)
    }};
}

/// The same with an arena that may change.
macro_rules! changing {
    ($call:expr, $table:expr, $room:expr, $($more:expr),+) => {{
        let (table, Room { words, starts, nodes, used }) = ($table, $room);
        // SAFETY: see the head of this file.
        let answer = unsafe {
            $call(
                table.as_ptr(), table.len(), words.as_mut_ptr(), words.len(), starts.as_mut_ptr(), starts.len(),
                nodes, used, $($more),+
            )
        };
        Refused::judge(answer)
    }};
}

pub(crate) fn ask(lent: Lent, question: Question, root: u32) -> Reply<u32> {
    let call = match question {
        Question::UnwrapNamed => ffi::lang_ty_unwrap_named,
        Question::HasTypeVars => ffi::lang_ty_has_type_vars,
        Question::NeedsVarNormalization => ffi::lang_ty_needs_var_normalization,
        Question::ContainsBareTyvar => ffi::lang_ty_contains_bare_tyvar,
        Question::HasSharedTyvar => ffi::lang_ty_has_shared_tyvar_across_lambda_params,
    };
    let mut told = 0;
    reading!(call, lent, root, &mut told)?;
    Ok(told)
}

pub(crate) fn free_type_vars(lent: Lent, root: u32) -> Reply<Vec<u32>> {
    let mut vars = Box::new([0; ffi::VARS]);
    let mut count = 0;
    reading!(
        ffi::lang_ty_free_type_vars,
        lent,
        root,
        &mut *vars,
        &mut count
    )?;
    Ok(vars[..count].to_vec())
}

/// How many of the bytes the text takes.
pub(crate) fn display(lent: Lent, root: u32, text: &mut [u8]) -> Reply<usize> {
    let mut length = 0;
    reading!(
        ffi::lang_ty_display,
        lent,
        root,
        text.as_mut_ptr(),
        text.len(),
        &mut length
    )?;
    Ok(length)
}

pub(crate) fn compare(lent: Lent, left: u32, right: u32) -> Reply<Ordering> {
    let mut order = 0;
    reading!(ffi::lang_ty_compare, lent, left, right, &mut order)?;
    Ok(match order {
        ffi::LESS => Ordering::Less,
        ffi::EQUAL => Ordering::Equal,
        _ => Ordering::Greater,
    })
}

pub(crate) fn structurally_eq(left: (Lent, u32), right: (Lent, u32)) -> Reply<bool> {
    let (
        Lent {
            table,
            words,
            starts,
        },
        root,
    ) = right;
    let mut is = 0;
    reading!(
        ffi::lang_ty_structurally_eq,
        left.0,
        left.1,
        table.as_ptr(),
        table.len(),
        words.as_ptr(),
        words.len(),
        starts.as_ptr(),
        starts.len(),
        starts.len(),
        words.len(),
        root,
        &mut is
    )?;
    Ok(is == 1)
}

/// Copies the type into a target that has room for it.
pub(crate) fn compact(lent: Lent, root: u32, target: &mut Room) -> Reply<u32> {
    let Room {
        words,
        starts,
        nodes,
        used,
    } = target;
    let mut copied = 0;
    reading!(
        ffi::lang_ty_compact,
        lent,
        root,
        words.as_mut_ptr(),
        words.len(),
        starts.as_mut_ptr(),
        starts.len(),
        nodes,
        used,
        &mut copied
    )?;
    Ok(copied)
}

pub(crate) fn change(change: Change, table: &[u8], room: &mut Room, root: u32) -> Reply<u32> {
    let mut after = 0;
    let call = match change {
        Change::Simplify => {
            let mut passes = 0;
            changing!(
                ffi::lang_ty_simplify,
                table,
                room,
                root,
                &mut after,
                &mut passes
            )?;
            return Ok(after);
        }
        Change::Vars => ffi::lang_ty_normalize_vars,
        Change::ReplacingUnknown => ffi::lang_ty_normalize_replacing_unknown,
        Change::SetOps => ffi::lang_ty_normalize_set_ops,
    };
    changing!(call, table, room, root, &mut after)?;
    Ok(after)
}

/// How a variable is printed. It is never refused.
pub(crate) fn tyvar_name(index: u32) -> String {
    let mut text = [0; ffi::TYVAR_NAME];
    let mut length = 0;
    // SAFETY: see the head of this file.
    unsafe { ffi::lang_ty_tyvar_name(index, &mut text, &mut length) };
    text[..length].iter().copied().map(char::from).collect()
}
