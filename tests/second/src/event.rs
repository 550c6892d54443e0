//! The eleven events (an extend has two sources) and their answers.

#[derive(Clone, Copy, PartialEq, Eq, Debug)]
pub enum Event {
    Register { mark: u64 },
    Unregister { mark: u64, slot: u64 },
    Call { mark: u64, address: u64, input: u64, output: u64 },
    Return,
    Jump { address: u64 },
    Read { address: u64, length: u64 },
    Write { address: u64 },
    DeviceRead { address: u64, length: u64 },
    DeviceWrite { address: u64 },
    ExtendPayload { index: u64 },
    ExtendMemory { index: u64, address: u64, length: u64 },
    PcrRead { index: u64 },
}

#[derive(Clone, PartialEq, Eq, Debug)]
pub enum Answer {
    Done,
    Slot(usize),
    Entered(usize),
    Left(usize),
    Terminated(usize),
    Bytes(Vec<u8>),
}

/// Document 01's number given for no.
pub type No = u8;
