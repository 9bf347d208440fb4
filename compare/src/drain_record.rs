//! A drain as the library `player` writes it.
use crate::calls::Call;
use crate::record::{Bytes, Record};

/// How many entries the array of steps has.
pub const STEPS: usize = 192;

/// What the compiled drain and stop give, and what playing the steps gives if that was asked for.
#[derive(Debug)]
pub struct Made {
    pub answer: u8,
    pub count: usize,
    /// Every entry, past the count too: the command's byte and the identity.
    pub steps: Vec<(u8, u64)>,
    pub stop_answer: u8,
    pub commands: usize,
    pub stopped: Record,
    pub played: Option<Played>,
}

/// The answers of the commands, and the tables that they leave.
#[derive(Debug)]
pub struct Played {
    pub answers: Vec<u8>,
    pub left: Record,
}

/// The next drain; none if the bytes are none.
pub fn read(bytes: &mut Bytes, played: bool) -> Option<Made> {
    Some(Made {
        answer: bytes.u8()?,
        count: bytes.u16()?.into(),
        steps: (0..STEPS).map(|_| bytes.optional()).collect::<Option<_>>()?,
        stop_answer: bytes.u8()?,
        commands: bytes.u16()?.into(),
        stopped: bytes.tables(0, 0)?,
        played: if played { Some(read_played(bytes)?) } else { None },
    })
}

fn read_played(bytes: &mut Bytes) -> Option<Played> {
    let count = bytes.u16()?;
    Some(Played { answers: (0..count).map(|_| bytes.u8()).collect::<Option<_>>()?, left: bytes.tables(0, 0)? })
}

/// The call of a step, by its byte in a log; none of another byte.
pub fn call((byte, id): (u8, u64)) -> Option<Call> {
    let id = usize::try_from(id).ok()?;
    match byte {
        0x06 => Some(Call::Leave(id)),
        0x09 => Some(Call::BeginCleanup(id)),
        0x0A => Some(Call::FinishCleanup(id)),
        _ => None,
    }
}
