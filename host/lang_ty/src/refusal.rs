//! What the library refuses, said where it can't be answered otherwise.

use crate::OutputTy;

/// A refusal: document 01's number.
#[derive(Debug, Clone, Copy, PartialEq, Eq)]
pub(crate) struct Refused(pub u32);

impl Refused {
    pub const NAMES: Refused = Refused(1);
    pub const NODE: Refused = Refused(3);
    pub const CHILD: Refused = Refused(4);
    pub const ROOM: Refused = Refused(7);
    #[cfg(feature = "outside-limits")]
    pub const MEMBERS: Refused = Refused(8);
    pub const TEXT: Refused = Refused(9);

    /// What the library answered: 0 is no refusal.
    pub fn judge(answer: u32) -> Result<(), Refused> {
        match answer {
            0 => Ok(()),
            number => Err(Refused(number)),
        }
    }

    fn cause(self) -> &'static str {
        match self.0 {
            1 => "the host that lends memory: the table holds 4,096 names in 65,536 bytes, each name of 1 to 64 bytes from 32 to 126",
            3 => "the author of the node: it is Extern, or has no member, over 64 members or fields, or an optional name without a field",
            4 => "the author of the node: a child isn't stored before it",
            6 => "the author of the call: the root isn't in the arena",
            7 => "the size of the work: an arena has no room past 4,096 nodes in 16,384 words",
            8 => "the size of the work: a member list would have a 65th different member",
            9 => "the size of the work: the text is over 65,536 bytes",
            _ => "this crate: it has lent memory that the library refuses",
        }
    }

    /// Ends an `intern` that can't store this node.
    #[cfg(not(feature = "outside-limits"))]
    #[cold]
    pub fn of_node(self, node: &OutputTy) -> ! {
        panic!(
            "lang_ty: refused {}, caused by {}; the node is {node:?}",
            self.0,
            self.cause()
        )
    }

    /// Ends a call on the type with this root, which is none if there is no such node.
    #[cold]
    pub fn of_call(self, call: &str, root: u32, node: Option<&OutputTy>) -> ! {
        let (number, cause) = (self.0, self.cause());
        match node {
            Some(node) => panic!("lang_ty: refused {number}, caused by {cause}; {call} of node {root}, {node:?}"),
            None => panic!("lang_ty: refused {number}, caused by {cause}; {call} of node {root}, which isn't there"),
        }
    }
}
