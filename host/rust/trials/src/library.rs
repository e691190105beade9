//! The calls of the static library on guarded buffers.
use lemtskavo::ffi::{self, RankCalled, RankPatrol, RankRead, Record};

use crate::guarded::{Guarded, lend};

// What each SAFETY below stands on: pointer and length are those of a guarded buffer, no two of which overlap, and `tests/wrapper` compares
// the archive's version.

pub fn boot(memory: &mut Guarded<u8>, catch_words: &[u64]) -> RankCalled {
    let mut lent = Guarded::new(catch_words, 0xA5A5_A5A5_A5A5_A5A5);
    // SAFETY: `memory` and `lent` are guarded buffers.
    let called = unsafe { ffi::rank_boot(memory.pointer(), memory.length(), lent.pointer(), lent.length()) };
    memory.check_guards();
    lent.check_kept(catch_words);
    called
}

pub fn write(record: Record, memory: &mut Guarded<u8>, line: u32, data: &[u8]) -> RankCalled {
    let mut lent = lend(data);
    // SAFETY: `memory` and `lent` are guarded buffers.
    let called = unsafe { ffi::rank_write(record, memory.pointer(), memory.length(), line, lent.pointer(), lent.length()) };
    memory.check_guards();
    lent.check_kept(data);
    called
}

/// Hands back the bytes of the read's buffer too.
pub fn read(record: Record, memory: &mut Guarded<u8>, task: u32, line: u32, buffer: &[u8]) -> (RankRead, Vec<u8>) {
    let mut lent = lend(buffer);
    // SAFETY: `memory` and `lent` are guarded buffers.
    let read = unsafe { ffi::rank_read(record, memory.pointer(), memory.length(), task, line, lent.pointer(), lent.length()) };
    memory.check_guards();
    lent.check_guards();
    (read, lent.inside().to_vec())
}

pub fn patrol(record: Record, memory: &mut Guarded<u8>, task: u32, first: u32, budget: u32) -> RankPatrol {
    // SAFETY: `memory` is a guarded buffer.
    let patrol = unsafe { ffi::rank_patrol(record, memory.pointer(), memory.length(), task, first, budget) };
    memory.check_guards();
    patrol
}

pub fn renew(record: Record, chip: u32, catch_word: u64) -> RankCalled {
    // SAFETY: no pointer is passed.
    unsafe { ffi::rank_renew(record, chip, catch_word) }
}

pub fn fault(record: Record, memory: &mut Guarded<u8>, line: u32, chip: u32, pattern: &[u8]) -> RankCalled {
    let mut lent = lend(pattern);
    // SAFETY: `memory` and `lent` are guarded buffers.
    let called = unsafe { ffi::rank_fault(record, memory.pointer(), memory.length(), line, chip, lent.pointer(), lent.length()) };
    memory.check_guards();
    lent.check_kept(pattern);
    called
}
