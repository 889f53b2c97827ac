use std::error::Error;
use std::fmt;

/// A call that was refused: document 01's number, 1 to 10, or document 02's, 11 to 14. It displays as the number and a sentence
/// that says who caused it.
#[derive(Debug, Clone, Copy, PartialEq, Eq)]
pub struct Refusal {
    number: u32,
}

impl Refusal {
    pub(crate) const ARENA: Refusal = Refusal { number: 2 };
    pub(crate) const NODE: Refusal = Refusal { number: 3 };
    pub(crate) const CHILD: Refusal = Refusal { number: 4 };
    pub(crate) const ROOT: Refusal = Refusal { number: 6 };
    pub(crate) const ROOM: Refusal = Refusal { number: 7 };

    /// What the library answered: 0 is no refusal.
    pub(crate) fn judge(answer: u32) -> Result<(), Refusal> {
        match answer {
            0 => Ok(()),
            number => Err(Refusal { number }),
        }
    }

    /// The number that a sheet's line tells.
    pub(crate) fn told(number: &str) -> Refusal {
        let number = number.parse();
        let number = number.expect("the line of a refused sheet has a number");
        Refusal { number }
    }

    pub fn number(self) -> u32 {
        self.number
    }
}

impl fmt::Display for Refusal {
    fn fmt(&self, f: &mut fmt::Formatter<'_>) -> fmt::Result {
        let caused = match self.number {
            1 => "the host that lends memory: the name table breaks a rule",
            2 => "the host that lends memory: the arena is over a limit or unsound",
            3 => "the author of the node: it is empty, or a kind, count, code, flag or zero field doesn't fit",
            4 => "the author of the node: a child isn't below the node count, or a name isn't in the table",
            5 => "the author of the node: its field names don't strictly rise",
            6 => "the author of the call: the root isn't below the node count",
            7 => "the size of the work: the arena has no room for a node that is needed",
            8 => "the size of the work: a member list would have a 65th different member",
            9 => "the size of the work: the text or the sheet exceeds the lent bytes, or 65,536 bytes",
            10 => "the sender of the sheet: it ends early, goes on, is too long or repeats a node",
            11 => "the sender of the old sheet: the rules of old sheets refuse it before simplification",
            12 => "the author of the call: a name of the type isn't in the target's table",
            13 => "the author of the fix: it has no value or over 1,024, or its words break the layout",
            14 => "the author of the call: the type has a variable",
            _ => unreachable!("the library answers 0 to 14"),
        };
        write!(f, "refused {}, caused by {caused}", self.number)
    }
}

impl Error for Refusal {}
