//! Calls that need no arena.

use std::cmp::Ordering;

use crate::arena::order_of;
use crate::{memory, Refusal};

fn text(bytes: Vec<u8>) -> String {
    String::from_utf8(bytes).expect("a text has bytes 10 and 32 to 126")
}

/// How a variable is printed.
pub fn tyvar_name(index: u32) -> String {
    text(memory::tyvar_name(index))
}

/// How two names stand in order.
pub fn compare_names(left: &str, right: &str) -> Ordering {
    order_of(memory::compare_names(left.as_bytes(), right.as_bytes()))
}

/// What the sheet program writes for a sheet, without the byte that ends the line: the root and the passes of `simplify`, and
/// the text as [`crate::TypeArena::display_nix`] gives it; 1, 3 to 10.
pub fn sheet_line(sheet: &[u8]) -> Result<String, Refusal> {
    let line = text(memory::sheet_line(sheet));
    let line = line.trim_end_matches('\n').to_string();
    // The line of a type begins with the number of its root.
    match line.strip_prefix("refused ") {
        Some(number) => Err(Refusal::told(number)),
        None => Ok(line),
    }
}

/// Makes the new sheet of an old one, whose field words have 8 bits for the name, in its bytes: nothing but field words
/// changes, so the line is the old one. 11 if the old rules refuse the sheet before simplification; then all bytes stay.
/// A sheet that is new already is refused so, or stays as it is.
///
/// ```
/// use coombtray::{convert_sheet, sheet_line};
///
/// // The names p and q, the variable a, and a set with a under q.
/// let mut sheet = *b"\x00\x02\x00\x02\x00\x01\x01p\x01q\x30\x00\x00\x01\x00\x00\x00\x00\x60\x00\x00\x01\x00\x80\x00\x00";
/// assert_eq!(sheet_line(&sheet).unwrap_err().number(), 4);
/// convert_sheet(&mut sheet)?;
/// assert_eq!(sheet_line(&sheet)?, "1 2 { q: a }");
/// # Ok::<(), coombtray::Refusal>(())
/// ```
pub fn convert_sheet(sheet: &mut [u8]) -> Result<(), Refusal> {
    memory::convert_sheet(sheet)
}
