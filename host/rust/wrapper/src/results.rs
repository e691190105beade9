//! What reads and patrols give.
use core::error::Error;
use core::fmt;

use crate::{DATA_BYTES, Refusal};

/// What a visit to a line went through. Bit K of a mask is chip K's.
#[derive(Clone, Copy, Debug, Default, PartialEq, Eq, Hash)]
pub struct Visit {
    /// Passes made: 1 to 3, and if the row was diagnosed, 3 and two for each other line of it, up to 257; 0 if the line was not visited.
    pub passes: u32,
    /// The chips that held no codeword. If the line was answered, they were repaired.
    pub flagged: u32,
    /// The chips whose word is sound and equal to their catch-word. If the line was answered, they have another catch-word now.
    pub collisions: u32,
}

/// An answered read.
#[derive(Clone, Copy, Debug, PartialEq, Eq, Hash)]
pub struct Read {
    /// The line.
    pub data: [u8; DATA_BYTES],
    /// How it was found.
    pub visit: Visit,
}

/// A refused read.
#[derive(Clone, Copy, Debug, PartialEq, Eq, Hash)]
pub struct RefusedRead {
    /// Why it was refused.
    pub refusal: Refusal,
    /// How far its visit came: all 0, but with [`Refusal::Unlocated`] and [`Refusal::Uncorrectable`].
    pub visit: Visit,
}

impl fmt::Display for RefusedRead {
    fn fmt(&self, f: &mut fmt::Formatter<'_>) -> fmt::Result {
        self.refusal.fmt(f)
    }
}

impl Error for RefusedRead {}

impl From<RefusedRead> for Refusal {
    fn from(refused: RefusedRead) -> Refusal {
        refused.refusal
    }
}

/// What a patrol counted.
#[derive(Clone, Copy, Debug, Default, PartialEq, Eq, Hash)]
pub struct Patrol {
    /// Lines visited.
    pub visited: u32,
    /// Lines visited that a read would have refused with 20 or 21. They are as they were.
    pub refused: u32,
    /// Words repaired in the other lines.
    pub rewritten: u32,
}
