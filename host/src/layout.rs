//! The words of a node and of a value, bit by bit, as docs/HOST.md has them under "Words" and `lang_ty.h` in C. Numbers must fit
//! their bits; whoever writes a word looks at that first.

/// The kinds of nodes, under the Rust's names.
pub const BOTTOM: u32 = 0;
pub const TOP: u32 = 1;
pub const PRIMITIVE: u32 = 2;
pub const TYVAR: u32 = 3;
pub const LIST: u32 = 4;
pub const LAMBDA: u32 = 5;
pub const ATTR_SET: u32 = 6;
pub const UNION: u32 = 7;
pub const INTERSECTION: u32 = 8;
pub const NAMED: u32 = 9;
pub const NEG: u32 = 10;

/// The kinds of values.
pub const VALUE_NULL: u32 = 0;
pub const VALUE_BOOL: u32 = 1;
pub const VALUE_INT: u32 = 2;
pub const VALUE_FLOAT: u32 = 3;
pub const VALUE_STRING: u32 = 4;
pub const VALUE_PATH: u32 = 5;
pub const VALUE_LIST: u32 = 6;
pub const VALUE_SET: u32 = 7;

/// The most fields or members of a node.
pub const MOST: usize = 64;

/// What a set's head has besides its kind and count, and a field's word besides its name and child.
pub const OPEN: u32 = 1 << 27;
pub const DYNAMIC: u32 = 1 << 26;
pub const OPTIONAL: u32 = 1 << 31;

const NAME_AT: u32 = 15;
const NAME: u32 = 0xffff << NAME_AT;

/// The head of a node or a value with so many words after it.
pub fn head(kind: u32, count: usize) -> u32 {
    kind << 28 | count as u32
}

pub fn kind(head: u32) -> u32 {
    head >> 28
}

/// How many words follow the head.
pub fn count(head: u32) -> usize {
    (head & 0xffff) as usize
}

/// How many of them are fields.
pub fn fields(head: u32) -> usize {
    match kind(head) {
        ATTR_SET => count(head) - usize::from(head & DYNAMIC > 0),
        NAMED => 1,
        _ => 0,
    }
}

/// The word of a field that isn't optional.
pub fn field(name: u32, child: u32) -> u32 {
    name << NAME_AT | child
}

/// The number of the name in a field's word.
pub fn name(field: u32) -> u32 {
    (field & NAME) >> NAME_AT
}

/// The field's word with another name.
pub fn with_name(field: u32, name: u32) -> u32 {
    field & !NAME | name << NAME_AT
}

/// The number of the node or the value in a child's or a field's word.
pub fn child(word: u32) -> u32 {
    word & 0xfff
}
