//! The numbers with which a call is refused.

#[derive(Clone, Copy, Debug, PartialEq, Eq)]
#[repr(u8)]
pub enum Refusal {
    TooMuchMemory = 1,
    BadState = 2,
    UnknownInstruction = 3,
    FourthPrefix = 4,
    TapeTooShort = 5,
    LogTooFull = 6,
    InterruptMasked = 7,
    MachineHalted = 8,
    MalformedRecord = 9,
    InterruptHeldOff = 13,
}

impl Refusal {
    pub fn number(self) -> u8 {
        self as u8
    }
}
