//! The answer line of each case.

use std::cmp::Ordering;
use std::fmt::Write;
use std::ops::Range;

use lang_ty::TypeArena;

use crate::calls::{self, Changed};
use crate::case::{hex, without_zeros, Case, Host};
use crate::layout::{NEW, OLD};
use crate::memory::Memory;
use crate::{sheet, table, Reply};

/// An answer line, and whether the unchanged Rust was left out because the type is too large for it.
pub struct Answer {
    pub line: String,
    pub left_out: bool,
}

impl Answer {
    /// The line up to the memory that a call left.
    pub fn without_memory(self) -> String {
        let end = self.line.find(" W").unwrap_or(self.line.len());
        self.line[..end].into()
    }
}

pub fn answer(case: &Case) -> Answer {
    let mut left_out = false;
    let left = &mut left_out;
    let line = match case {
        Case::TyvarName(index) => lang_ty::tyvar_name(*index),
        Case::Intern(host, node) => changed(host, calls::intern(host, node)),
        Case::Order(host, left, right) => said(calls::order(host, *left, *right).map(order)),
        Case::Simplify(host, root) => changed(host, calls::simplify(host, *root, left)),
        Case::Display(host, root, room) => said(calls::display(host, *root, *room).map(text)),
        Case::Table(bytes) => said(table::check(bytes).map(|names| format!("ok {}", names.len()))),
        Case::NameAt(table, number) => said(table::place(table, *number).map(stretch)),
        Case::FindName(table, text) => said(table::find(table, text).map(sought)),
        Case::Names(left, right) => order(left.cmp(right)),
        Case::Sheet(bytes) => said(sheet::line(NEW, bytes, left)),
        Case::Convert(bytes) => converted(bytes, left),
        Case::OnType(op, host, root) => on_type(*op, host, *root),
        Case::Compact(host, root, target) => compacted(calls::compact(host, *root, target)),
        Case::Equal(left, right) => {
            let equal = calls::structurally_eq((&left.0, left.1), (&right.0, right.1));
            said(equal.map(yes))
        }
        Case::Import(source, root, target) => {
            changed(target, calls::import_from_arena(source, *root, target))
        }
        Case::WriteSheet(host, root, room) => {
            said(calls::write_sheet(host, *root, *room).map(text))
        }
        Case::DisplayNix(host, root, room) => {
            said(calls::display_nix(host, *root, *room).map(text))
        }
        Case::Fits(host, root, fix) => said(calls::fits(host, *root, fix).map(yes)),
    };
    Answer { line, left_out }
}

fn on_type(op: u8, host: &Host, root: u32) -> String {
    let ask = |question| said(calls::ask(host, root, question).map(yes));
    let renumber = |call| changed(host, calls::renumber(host, root, call));
    match op {
        9 => said(calls::ask(host, root, TypeArena::free_type_vars).map(variables)),
        10 => renumber(TypeArena::normalize_vars),
        11 => ask(TypeArena::needs_var_normalization),
        12 => renumber(TypeArena::normalize_replacing_unknown),
        13 => ask(TypeArena::has_type_vars),
        14 => ask(TypeArena::contains_bare_tyvar),
        15 => ask(TypeArena::has_shared_tyvar_across_lambda_params),
        16 => said(calls::unwrap_named(host, root).map(|number| format!("ok {number}"))),
        17 => changed(host, calls::set_ops(host, root)),
        20 => said(calls::reachable(host, root).map(|count| format!("ok {count}"))),
        _ => unreachable!("no such operation"),
    }
}

/// The bytes as the converter leaves them, and the line that the old sheet had.
fn converted(old: &[u8], left_out: &mut bool) -> String {
    match sheet::convert(old) {
        Ok(new) => format!("ok {} {}", hex(&new), said(sheet::line(OLD, old, left_out))),
        Err(number) => format!("{} {}", refused(number), hex(old)),
    }
}

fn refused(number: u8) -> String {
    format!("refused {number}")
}

fn said(reply: Reply<String>) -> String {
    reply.unwrap_or_else(refused)
}

fn yes(is_so: bool) -> String {
    String::from(if is_so { "yes" } else { "no" })
}

fn order(order: Ordering) -> String {
    String::from(match order {
        Ordering::Less => "before",
        Ordering::Equal => "same",
        Ordering::Greater => "after",
    })
}

fn stretch(place: Range<usize>) -> String {
    format!("ok {} {}", place.start, place.len())
}

fn sought(found: Result<usize, usize>) -> String {
    match found {
        Ok(number) => format!("found {number}"),
        Err(before) => format!("absent {before}"),
    }
}

fn text(text: impl AsRef<[u8]>) -> String {
    let bytes = text.as_ref();
    format!("ok {} {}", bytes.len(), hex(bytes))
}

fn variables(indexes: Vec<u32>) -> String {
    let mut line = format!("ok {}", indexes.len());
    words(&mut line, &indexes);
    line
}

fn words(line: &mut String, words: &[u32]) {
    for word in words {
        write!(line, " {word:x}").unwrap();
    }
}

fn memory(line: &mut String, memory: &Memory) {
    line.push_str(" W");
    words(line, without_zeros(&memory.words));
    line.push_str(" S");
    words(line, without_zeros(&memory.starts));
}

/// The reply's numbers, the counters and all lent words; after a refusal, memory as lent.
fn changed(host: &Host, reply: Reply<Changed>) -> String {
    match reply {
        Ok((numbers, after)) => {
            let mut line = String::from("ok");
            for number in numbers.iter().chain([&after.nodes, &after.used]) {
                write!(line, " {number}").unwrap();
            }
            memory(&mut line, &after);
            line
        }
        Err(number) => {
            let mut line = refused(number);
            memory(&mut line, &host.memory);
            line
        }
    }
}

/// The target's counters and words, after a refusal too.
fn compacted((reply, target): (Reply<u32>, Memory)) -> String {
    let mut line = reply.map_or_else(refused, |root| format!("ok {root}"));
    write!(line, " {} {}", target.nodes, target.used).unwrap();
    memory(&mut line, &target);
    line
}
