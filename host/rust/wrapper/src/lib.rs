//! A safe wrapper over the proved calls of a controller for a nine-chip DRAM buffer with on-die error detection.
//!
//! A [`Rank`] holds a record and the memory that is lent to it, so that neither can be given with another one's.
//!
//! ```
//! use lemtskavo::{DATA_BYTES, PATTERN_BYTES, Rank, Refusal, memory_bytes};
//!
//! /// This firmware's number for the task that reads the map, 0 to 7.
//! const MAP_TASK: u32 = 3;
//!
//! let mut memory = [0; memory_bytes(4)];
//! let mut rank = Rank::boot(&mut memory, [11, 22, 33, 44, 55, 66, 77, 88, 99])?; // better: random numbers
//! rank.write(2, &[0xab; DATA_BYTES])?;
//! rank.fault(2, 5, &[0xff; PATTERN_BYTES])?;
//! let read = rank.read(MAP_TASK, 2)?;
//! assert_eq!(read.data, [0xab; DATA_BYTES]);
//! assert_eq!(read.visit.flagged, 1 << 5);
//! assert_eq!(rank.repairs(), [0, 0, 0, 1, 0, 0, 0, 0]);
//! # Ok::<(), Refusal>(())
//! ```
//!
//! # What is guaranteed
//!
//! Proved for every list of calls from an accepted boot, while the premise holds: a read gives the line last written, 64 zeros if none was,
//! or it refuses with 21; and it does not refuse if one chip alone is damaged, or each chip in one bit at most, or every chip but one in
//! one bit at most and that one is beyond mending, or blamed by the other lines of its row. The premise, at each visit to a line: no chip's
//! damage makes another codeword of its codeword, at most one chip has more than one bad bit, and if the row is diagnosed, no chip with one
//! bad bit is blamed. Outside the premise a line that is read may not be the one written; `include/rank.h` has examples, and says what a row
//! is and when a chip is blamed.
//!
//! Without any premise, every call ends, and a refused call changes no byte of the memory and nothing of the record.
//!
//! This crate is not proved: that it passes on what it is given, and what comes back, is tested.
//!
//! # How it links
//!
//! The repository's `host/library` proves the library and writes `target/staticlib/librank.a`, for x86-64 Linux, which the build script
//! links. The environment variable `RANK_LIB_DIR` names another folder that has the archive, by an absolute path. The archive needs
//! `memcpy` and `memset` and nothing else, and this crate needs no `std`.
#![no_std]
#![deny(missing_docs)]

mod calls;
pub mod ffi;
mod rank;
mod refusal;
mod results;

pub use ffi::Record;
pub use rank::Rank;
pub use refusal::{Refusal, UnknownRefusal};
pub use results::{Patrol, Read, RefusedRead, Visit};

/// The bytes of a line in the memory: nine chips of nine bytes.
pub const LINE_BYTES: usize = 81;

/// The bytes of a line as it is written and read.
pub const DATA_BYTES: usize = 64;

/// The chips of a rank, so also its catch-words.
pub const CHIPS: usize = 9;

/// The bytes of a pattern: eight of the word, highest first, then the check byte.
pub const PATTERN_BYTES: usize = 9;

/// The most lines that a rank can have.
pub const LINE_LIMIT: u32 = 65_536;

/// The tasks that repairs are counted for, numbered from 0.
pub const TASK_LIMIT: usize = 8;

/// Where a repair total stops.
pub const REPAIR_LIMIT: u32 = u32::MAX;

/// The bytes of memory for a rank of so many lines, 1 to [`LINE_LIMIT`]. Far above that it stays at [`usize::MAX`], which no boot accepts.
#[must_use]
pub const fn memory_bytes(lines: usize) -> usize {
    lines.saturating_mul(LINE_BYTES)
}
