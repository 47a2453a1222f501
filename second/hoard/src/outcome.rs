//! Outcomes of calls and the refusals with their numbers.

use crate::state::{Control, State};

/// Why a call or a record was refused.
#[derive(Clone, Copy, Debug, PartialEq, Eq)]
pub enum Refusal {
    /// A setup number outside its limits.
    Setup = 1,
    /// Processor 0 or above P.
    Processor = 2,
    /// A size that no block has; none of 16 bits is such a size any more.
    Size = 3,
    /// No place offers a superblock.
    NoSuperblock = 4,
    /// Address past the superblocks, or in an unused one.
    UnmappedAddress = 5,
    /// Address that is not the start of a block.
    MisalignedAddress = 6,
    /// The block is not live.
    NotLive = 7,
    /// Unknown command byte.
    UnknownCommand = 8,
    /// The record ends inside a command.
    TruncatedCommand = 9,
    /// A command in the wrong place, or no byte at all.
    MisplacedCommand = 10,
    /// Record above its longest length.
    RecordTooLong = 11,
    /// Too few order places lent.
    Storage = 12,
    /// The state fails its check.
    State = 13,
    /// A name to bind that is held, or above 1023.
    TakenName = 14,
    /// A name to free that is not held.
    NameNotHeld = 15,
    /// A drop of no block.
    EmptyDrop = 16,
    /// No run of superblocks for a long block.
    NoRun = 17,
}

impl Refusal {
    /// The number printed for this refusal.
    pub fn number(self) -> u8 {
        self as u8
    }
}

/// What a call answers.
#[derive(Clone, Copy, Debug, PartialEq, Eq)]
pub enum Outcome {
    /// An accepted setup.
    Ready,
    /// A take: the address it got.
    At(u32),
    /// A free or a drop: the superblocks it moved to the global heap.
    Moved(u32),
    /// A refused call.
    Refused(Refusal),
}

/// Outcome of a call and the state after it.
#[derive(Clone, Debug, PartialEq, Eq)]
pub struct Answer {
    pub outcome: Outcome,
    pub state: State,
}

/// Outcome of a call on a lent row and the setup numbers, names and totals handed
/// back; the superblocks are in the row.
#[derive(Clone, Debug, PartialEq, Eq)]
pub struct RowAnswer {
    pub outcome: Outcome,
    pub control: Control,
}
