//! The explanation of a command as the library `reasons` writes it.
use crate::record::Bytes;
use crate::reference::rows::Reason;

/// The bytes of one.
pub const LENGTH: usize = 44;

/// The answer, place and test of it, 0 if the command is accepted; the witness's kind and its numbers.
#[derive(Clone, Copy, PartialEq, Eq, Debug)]
pub struct Explained {
    pub answer: u8,
    pub place: u8,
    pub test: u8,
    pub kind: u8,
    pub numbers: [u64; 5],
}

impl Explained {
    /// The next one; none if the bytes are not enough.
    pub fn read(bytes: &mut Bytes) -> Option<Explained> {
        let [answer, place, test, kind] = [bytes.u8()?, bytes.u8()?, bytes.u8()?, bytes.u8()?];
        let numbers = [bytes.u64()?, bytes.u64()?, bytes.u64()?, bytes.u64()?, bytes.u64()?];
        Some(Explained { answer, place, test, kind, numbers })
    }

    /// The one that tells this reason, or that the command is accepted.
    pub fn of(reason: Option<&Reason>) -> Explained {
        let Some(Reason { answer, place, test, witness }) = reason else {
            return Explained { answer: 0, place: 0, test: 0, kind: 0, numbers: [0; 5] };
        };
        let (kind, numbers) = (witness.kind(), witness.numbers());
        Explained { answer: *answer, place: *place as u8, test: *test, kind, numbers }
    }
}
