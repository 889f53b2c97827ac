//! A name as the Nix manual writes it, by the sentence of request A1, and the Rust's text with its names so.

use std::fmt::{self, Write};

/// What an identifier may not be.
pub const RESERVED: [&str; 10] = [
    "assert", "else", "if", "in", "inherit", "let", "or", "rec", "then", "with",
];

fn is_identifier(name: &str) -> bool {
    let begins = |c: char| c.is_ascii_alphabetic() || c == '_';
    let goes_on = |c: char| c.is_ascii_alphanumeric() || "_'-".contains(c);
    name.starts_with(begins) && name.chars().all(goes_on)
}

/// The name itself, or in quotes with a backslash before each quote, each backslash and each `${`.
pub fn spelled(name: &str) -> String {
    if is_identifier(name) && !RESERVED.contains(&name) {
        return name.into();
    }
    let inner = name.replace('\\', r"\\").replace('"', "\\\"");
    format!("\"{}\"", inner.replace("${", r"\${"))
}

/// The first of the characters that the Rust is given for names: they stand in the order of their numbers, and no other part
/// of a text has one.
const FIRST: u32 = 0xe000;

/// What the Rust is given in place of the name of this number.
pub fn stand_in(number: usize) -> String {
    let code = FIRST + number as u32;
    char::from_u32(code).expect("4,096 names at most").into()
}

/// Takes a text of the Rust and writes these in the places of the stand-ins.
pub struct InPlace<'a, W> {
    pub to: W,
    pub names: &'a [String],
}

impl<W: Write> Write for InPlace<'_, W> {
    fn write_str(&mut self, part: &str) -> fmt::Result {
        for c in part.chars() {
            match u32::from(c).checked_sub(FIRST) {
                Some(number) => self.to.write_str(&self.names[number as usize])?,
                None => self.to.write_char(c)?,
            }
        }
        Ok(())
    }
}
