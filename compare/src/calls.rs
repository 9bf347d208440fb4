//! A call of one of the fourteen commands, with operands of any size; insert and configure take the pending lists.
use crate::log::{Command, Port, NONE};

#[derive(Clone, Copy, PartialEq, Eq, Debug)]
pub enum Call {
    Begin(usize),
    Finish(usize),
    Leave(usize),
    LeaveIfChanged(usize),
    Retire(usize),
    BeginCleanup(usize),
    FinishCleanup(usize),
    Remove(usize),
    Declare(usize, Port),
    Release(usize, Port),
    CompactBindings,
    CompactDeclarations,
    Insert(Option<usize>),
    Configure(usize),
}

impl Call {
    /// The call that a log's command makes; the two for the pending lists are the log player's own and make none.
    pub fn of(command: Command) -> Option<Call> {
        Some(match command {
            Command::Dependency(_) | Command::Provision(_) => return None,
            Command::Insert(parent) => Call::Insert(parent_of(parent)),
            Command::Begin(id) => Call::Begin(id.into()),
            Command::Finish(id) => Call::Finish(id.into()),
            Command::Leave(id) => Call::Leave(id.into()),
            Command::LeaveIfChanged(id) => Call::LeaveIfChanged(id.into()),
            Command::Retire(id) => Call::Retire(id.into()),
            Command::BeginCleanup(id) => Call::BeginCleanup(id.into()),
            Command::FinishCleanup(id) => Call::FinishCleanup(id.into()),
            Command::Remove(id) => Call::Remove(id.into()),
            Command::CompactBindings => Call::CompactBindings,
            Command::CompactDeclarations => Call::CompactDeclarations,
            Command::Declare(id, p) => Call::Declare(id.into(), p),
            Command::Release(id, p) => Call::Release(id.into(), p),
            Command::Configure(id) => Call::Configure(id.into()),
        })
    }

    /// The identity that a call names, as the component or as the parent.
    pub fn named(self) -> Option<usize> {
        match self {
            Call::CompactBindings | Call::CompactDeclarations => None,
            Call::Insert(parent) => parent,
            Call::Declare(id, _) | Call::Release(id, _) | Call::Configure(id) => Some(id),
            Call::Begin(id) | Call::Finish(id) | Call::Leave(id) | Call::LeaveIfChanged(id) => Some(id),
            Call::Retire(id) | Call::BeginCleanup(id) | Call::FinishCleanup(id) | Call::Remove(id) => Some(id),
        }
    }
}

/// The parent that a log's byte stands for.
pub fn parent_of(byte: u8) -> Option<usize> {
    if byte == NONE {
        None
    } else {
        Some(byte.into())
    }
}
