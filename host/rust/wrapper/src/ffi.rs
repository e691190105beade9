//! The calls as `include/rank.h` declares them, for callers who keep record and memory apart.
//!
//! A slice is a pointer and a length. What the header asks of a caller is the condition of every `unsafe` call here:
//!
//! - The archive is of version [`VERSION`], as [`rank_version`] tells.
//! - A pointer is aligned for its type and valid for its length: `memory` and `buffer` to read and write, the others to read. With a length
//!   of 0 it is not used.
//! - `memory` shares no byte with `buffer`, `data`, `pattern` or the catch-words of the same call.
//!
//! Every value of every other argument is allowed: what does not fit is refused.
use core::mem::{align_of, offset_of, size_of};

use crate::{CHIPS, TASK_LIMIT};

/// The version of the interface that is declared here: the header's `RANK_VERSION`. An archive of another version can link, and its calls
/// then take other arguments and write anywhere.
pub const VERSION: u32 = 3;

/// The record of a rank, held by value: the header's `Rank`.
#[repr(C)]
#[derive(Clone, Copy, Debug, PartialEq, Eq, Hash)]
pub struct Record {
    /// N, the lines of the rank, numbered from 0.
    pub lines: u32,
    /// The Enable bit: bad words are replaced by catch-words.
    pub enable: bool,
    /// The catch-words as the controller knows them.
    pub catch_words: [u64; CHIPS],
    /// The catch-word registers as the chips hold them.
    pub registers: [u64; CHIPS],
    /// The words repaired since boot, by task. Each total stops at [`REPAIR_LIMIT`](crate::REPAIR_LIMIT), and their sum can pass 32 bits:
    /// add them as `u64`.
    pub repairs: [u32; TASK_LIMIT],
}

/// What boot, write, renew and fault return.
#[repr(C)]
#[derive(Clone, Copy, Debug, PartialEq, Eq)]
#[must_use = "the record in it is the one to keep"]
pub struct RankCalled {
    /// 0 if the call was carried out, or the number of a [`Refusal`](crate::Refusal).
    pub refusal: u32,
    /// The record to keep, but for a refused boot, which returns one with every field zero.
    pub rank: Record,
}

/// What a read returns. With refusals 20 and 21 passes and masks are those reached; with every other they are 0.
#[repr(C)]
#[derive(Clone, Copy, Debug, PartialEq, Eq)]
#[must_use = "the record in it is the one to keep"]
pub struct RankRead {
    /// 0 if the line is in the buffer, or the number of a [`Refusal`](crate::Refusal).
    pub refusal: u32,
    /// Passes made: 1 to 3, and if the row was diagnosed, 3 and two for each other line of it, up to 257.
    pub passes: u32,
    /// Bit K: chip K held no codeword. If the line was answered, its word was repaired.
    pub flagged: u32,
    /// Bit K: chip K's word is sound and equal to its catch-word.
    pub collisions: u32,
    /// The record to keep.
    pub rank: Record,
}

/// What a patrol returns. Its counts are 0 if it is refused.
#[repr(C)]
#[derive(Clone, Copy, Debug, PartialEq, Eq)]
#[must_use = "the record in it is the one to keep"]
pub struct RankPatrol {
    /// 0 if the patrol was made, or the number of a [`Refusal`](crate::Refusal); never 20 or 21.
    pub refusal: u32,
    /// Lines visited.
    pub visited: u32,
    /// Lines visited that a read would have refused with 20 or 21.
    pub refused: u32,
    /// Words repaired in the other lines.
    pub rewritten: u32,
    /// The record to keep.
    pub rank: Record,
}

// SAFETY: names, parameters and structs are the header's. The one that is `safe` takes nothing, in an archive of any version.
unsafe extern "C" {
    /// The version of the interface that the archive was built with, to be compared with [`VERSION`].
    #[must_use]
    pub safe fn rank_version() -> u32;

    /// Makes a rank of a memory. Refusals: 11, 5.
    pub fn rank_boot(memory: *mut u8, memory_len: usize, catch_words: *const u64, count: usize) -> RankCalled;

    /// Writes a line. Refusals: 12, 13, 14, 1, 2.
    pub fn rank_write(rank: Record, memory: *mut u8, memory_len: usize, line: u32, data: *const u8, data_len: usize) -> RankCalled;

    /// Visits a line for a task, repairs it and puts its 64 bytes in the buffer. Refusals: 12, 13, 14, 31, 1, 2, then 20 or 21.
    pub fn rank_read(
        rank: Record,
        memory: *mut u8,
        memory_len: usize,
        task: u32,
        line: u32,
        buffer: *mut u8,
        buffer_len: usize,
    ) -> RankRead;

    /// Visits lines for a task from one upwards and repairs them. Refusals: 12, 13, 14, 31, 1.
    pub fn rank_patrol(rank: Record, memory: *mut u8, memory_len: usize, task: u32, first: u32, budget: u32) -> RankPatrol;

    /// Gives one chip another catch-word, in both copies. Refusals: 12, 14, 3.
    pub fn rank_renew(rank: Record, chip: u32, catch_word: u64) -> RankCalled;

    /// Xors a pattern into one chip of a line. Refusals: 12, 13, 14, 1, 3, 4.
    pub fn rank_fault(
        rank: Record,
        memory: *mut u8,
        memory_len: usize,
        line: u32,
        chip: u32,
        pattern: *const u8,
        pattern_len: usize,
    ) -> RankCalled;
}

// The second number of the package's version is the interface's.
const _: () = assert!(matches!(u32::from_str_radix(env!("CARGO_PKG_VERSION_MINOR"), 10), Ok(VERSION)));

// The same sizes and places as `include/rank.h` asserts.
const _: () = {
    assert!(size_of::<Record>() == 184 && align_of::<Record>() == 8);
    assert!(offset_of!(Record, lines) == 0 && offset_of!(Record, enable) == 4);
    assert!(offset_of!(Record, catch_words) == 8 && offset_of!(Record, registers) == 80);
    assert!(offset_of!(Record, repairs) == 152);
    assert!(size_of::<RankCalled>() == 192);
    assert!(offset_of!(RankCalled, refusal) == 0 && offset_of!(RankCalled, rank) == 8);
    assert!(size_of::<RankRead>() == 200);
    assert!(offset_of!(RankRead, refusal) == 0 && offset_of!(RankRead, passes) == 4);
    assert!(offset_of!(RankRead, flagged) == 8 && offset_of!(RankRead, collisions) == 12);
    assert!(offset_of!(RankRead, rank) == 16);
    assert!(size_of::<RankPatrol>() == 200);
    assert!(offset_of!(RankPatrol, refusal) == 0 && offset_of!(RankPatrol, visited) == 4);
    assert!(offset_of!(RankPatrol, refused) == 8 && offset_of!(RankPatrol, rewritten) == 12);
    assert!(offset_of!(RankPatrol, rank) == 16);
};
