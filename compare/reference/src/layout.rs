//! The two layouts of a field word, each with the most names that a table has under it. Everything is in the new one but a
//! sheet that is to be converted, which is read by the old.

use crate::node::Field;

/// From the most significant bit a field word has the optional mark, the name, zeros and the child.
#[derive(Clone, Copy, Debug)]
pub struct Layout {
    /// The lowest bit of the name.
    pub lowest: u32,
    /// Most names of a table.
    pub names: usize,
}

pub const OLD: Layout = Layout {
    lowest: 23,
    names: 256,
};

pub const NEW: Layout = Layout {
    lowest: 15,
    names: 4_096,
};

/// How many bits a child has, the lowest of its word.
pub const CHILD: u32 = 12;

const OPTIONAL: u32 = 31;

/// The bits from one to below another.
fn bits(from: u32, to: u32) -> u32 {
    (1 << to) - (1 << from)
}

impl Layout {
    /// The bits of the name.
    pub fn name(self) -> u32 {
        bits(self.lowest, OPTIONAL)
    }

    /// The bits that must be zero.
    pub fn zero(self) -> u32 {
        bits(CHILD, self.lowest)
    }

    pub fn field(self, word: u32) -> Field {
        Field {
            optional: word >> OPTIONAL == 1,
            name: ((word & self.name()) >> self.lowest) as u16,
            child: word & bits(0, CHILD),
        }
    }

    pub fn word(self, field: &Field) -> u32 {
        u32::from(field.optional) << OPTIONAL | u32::from(field.name) << self.lowest | field.child
    }
}

#[cfg(test)]
mod tests {
    use super::*;

    #[test]
    fn fields() {
        let field = Field {
            optional: true,
            name: 0xa5,
            child: 0xbcd,
        };
        for (layout, word) in [(OLD, 0xd280_0bcd), (NEW, 0x8052_8bcd)] {
            assert_eq!(layout.word(&field), word);
            assert_eq!(layout.field(word), field);
            assert_eq!(layout.field(word | layout.zero()), field);
        }
        assert_eq!((OLD.name(), OLD.zero()), (0x7f80_0000, 0x007f_f000));
        assert_eq!((NEW.name(), NEW.zero()), (0x7fff_8000, 0x0000_7000));
    }
}
