//! The byte format of a log: a command byte, then its operands.

#[derive(Clone, Copy, PartialEq, Eq)]
pub struct Port {
    pub key: u64,
    pub realm: u64,
}

pub const DEPENDENCY: u8 = 0x01;
pub const PROVISION: u8 = 0x02;
pub const INSERT: u8 = 0x03;
pub const BEGIN: u8 = 0x04;
pub const FINISH: u8 = 0x05;
pub const LEAVE: u8 = 0x06;
pub const LEAVE_IF_CHANGED: u8 = 0x07;
pub const RETIRE: u8 = 0x08;
pub const BEGIN_CLEANUP: u8 = 0x09;
pub const FINISH_CLEANUP: u8 = 0x0A;
pub const REMOVE: u8 = 0x0B;
pub const COMPACT_BINDINGS: u8 = 0x0C;
pub const COMPACT_DECLARATIONS: u8 = 0x0D;
pub const DECLARE: u8 = 0x0E;
pub const RELEASE: u8 = 0x0F;
pub const CONFIGURE: u8 = 0x10;

/// The parent byte that stands for no parent.
pub const NO_PARENT: u8 = 0xFF;
/// The longest pending list.
pub const LIST: usize = 32;
/// The answer to a port past the longest list.
pub const LIST_FULL: u8 = 9;

/// Operand lengths by command byte less one.
const OPERANDS: [usize; 16] = [16, 16, 1, 1, 1, 1, 1, 1, 1, 1, 1, 0, 0, 17, 17, 1];

/// A command of a log.
pub struct Command<'a> {
    pub byte: u8,
    operands: &'a [u8],
}

/// Takes the next command off a log. The lists are made by this program, so each is whole.
pub fn next<'a>(log: &mut &'a [u8]) -> Option<Command<'a>> {
    let (&byte, rest) = log.split_first()?;
    let (operands, rest) = rest.split_at(OPERANDS[usize::from(byte) - 1]);
    *log = rest;
    Some(Command { byte, operands })
}

impl Command<'_> {
    pub fn identity(&self) -> usize {
        self.operands[0].into()
    }

    pub fn parent(&self) -> Option<usize> {
        if self.operands[0] == NO_PARENT {
            None
        } else {
            Some(self.identity())
        }
    }

    /// The port, which stands last.
    pub fn port(&self) -> Port {
        let from = self.operands.len() - 16;
        let word = |at: usize| u64::from_le_bytes(self.operands[at..at + 8].try_into().unwrap());
        Port { key: word(from), realm: word(from + 8) }
    }
}
