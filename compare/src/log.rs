//! The byte format of a shift log: a command byte, then its operands.

#[derive(Clone, Copy, PartialEq, Eq, Debug)]
pub struct Port {
    pub key: u64,
    pub realm: u64,
}

/// A command of a log; an identity is the byte that the log has.
#[derive(Clone, Copy, PartialEq, Eq, Debug)]
pub enum Command {
    Dependency(Port),
    Provision(Port),
    Insert(u8),
    Begin(u8),
    Finish(u8),
    Leave(u8),
    LeaveIfChanged(u8),
    Retire(u8),
    BeginCleanup(u8),
    FinishCleanup(u8),
    Remove(u8),
    CompactBindings,
    CompactDeclarations,
    Declare(u8, Port),
    Release(u8, Port),
    Configure(u8),
}

/// The parent byte of an insert that stands for no parent.
pub const NONE: u8 = 0xFF;
/// The longest pending list.
pub const LIST: usize = 32;
/// The longest log.
pub const LONGEST: usize = 65_536;
/// The answer to a byte that is no command, and to cut operands.
pub const NO_COMMAND: u8 = 11;
pub const CUT: u8 = 12;

/// Operand lengths by command byte less one.
const OPERANDS: [usize; 16] = [16, 16, 1, 1, 1, 1, 1, 1, 1, 1, 1, 0, 0, 17, 17, 1];
pub const NAMES: [&str; 16] = [
    "01 dependency",
    "02 provision",
    "03 insert",
    "04 begin",
    "05 finish",
    "06 leave",
    "07 leave_if_changed",
    "08 retire",
    "09 begin_cleanup",
    "0A finish_cleanup",
    "0B remove",
    "0C compact_bindings",
    "0D compact_declarations",
    "0E declare_provision",
    "0F release_provision",
    "10 configure",
];

impl Command {
    /// The command byte.
    pub fn byte(self) -> u8 {
        match self {
            Command::Dependency(_) => 0x01,
            Command::Provision(_) => 0x02,
            Command::Insert(_) => 0x03,
            Command::Begin(_) => 0x04,
            Command::Finish(_) => 0x05,
            Command::Leave(_) => 0x06,
            Command::LeaveIfChanged(_) => 0x07,
            Command::Retire(_) => 0x08,
            Command::BeginCleanup(_) => 0x09,
            Command::FinishCleanup(_) => 0x0A,
            Command::Remove(_) => 0x0B,
            Command::CompactBindings => 0x0C,
            Command::CompactDeclarations => 0x0D,
            Command::Declare(..) => 0x0E,
            Command::Release(..) => 0x0F,
            Command::Configure(_) => 0x10,
        }
    }

    /// The identity byte, of a command that has one.
    pub fn identity(self) -> Option<u8> {
        match self {
            Command::Dependency(_)
            | Command::Provision(_)
            | Command::CompactBindings
            | Command::CompactDeclarations => None,
            Command::Insert(id) | Command::Begin(id) | Command::Finish(id) | Command::Leave(id) => Some(id),
            Command::LeaveIfChanged(id) | Command::Retire(id) | Command::BeginCleanup(id) => Some(id),
            Command::FinishCleanup(id) | Command::Remove(id) | Command::Configure(id) => Some(id),
            Command::Declare(id, _) | Command::Release(id, _) => Some(id),
        }
    }

    /// The port, of a command that has one.
    pub fn port(self) -> Option<Port> {
        match self {
            Command::Dependency(p) | Command::Provision(p) | Command::Declare(_, p) | Command::Release(_, p) => Some(p),
            _ => None,
        }
    }

    /// Appends the command's bytes.
    pub fn write(self, log: &mut Vec<u8>) {
        log.push(self.byte());
        log.extend(self.identity());
        if let Some(port) = self.port() {
            log.extend(port.key.to_le_bytes());
            log.extend(port.realm.to_le_bytes());
        }
    }

    /// The command of a byte from 01 to 10 with its whole operands.
    fn from_parts(byte: u8, operands: &[u8]) -> Command {
        let id = operands.first().copied().unwrap_or(0);
        let number = |at: usize| u64::from_le_bytes(operands[at..at + 8].try_into().unwrap());
        let port = |at: usize| Port { key: number(at), realm: number(at + 8) };
        match byte {
            0x01 => Command::Dependency(port(0)),
            0x02 => Command::Provision(port(0)),
            0x03 => Command::Insert(id),
            0x04 => Command::Begin(id),
            0x05 => Command::Finish(id),
            0x06 => Command::Leave(id),
            0x07 => Command::LeaveIfChanged(id),
            0x08 => Command::Retire(id),
            0x09 => Command::BeginCleanup(id),
            0x0A => Command::FinishCleanup(id),
            0x0B => Command::Remove(id),
            0x0C => Command::CompactBindings,
            0x0D => Command::CompactDeclarations,
            0x0E => Command::Declare(id, port(1)),
            0x0F => Command::Release(id, port(1)),
            _ => Command::Configure(id),
        }
    }
}

/// What stands at a place of a log.
pub enum Next {
    End,
    /// A command, and the place after it.
    Command(Command, usize),
    /// The answer that ends the run.
    Stop(u8),
}

/// How many bytes of operands a command byte has; 0 if it is no command.
pub fn operands(byte: u8) -> usize {
    OPERANDS.get(usize::from(byte).wrapping_sub(1)).copied().unwrap_or(0)
}

pub fn read(log: &[u8], at: usize) -> Next {
    let Some(&byte) = log.get(at) else { return Next::End };
    if !(0x01..=0x10).contains(&byte) {
        return Next::Stop(NO_COMMAND);
    }
    let end = at + 1 + operands(byte);
    match log.get(at + 1..end) {
        Some(operands) => Next::Command(Command::from_parts(byte, operands), end),
        None => Next::Stop(CUT),
    }
}
