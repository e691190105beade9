//! The two that are compared, behind one trait: the library's calls and those of safe Rust.
use lemtskavo::ffi::{self, RankCalled, RankPatrol, RankRead, Record};

use crate::fast;

/// One of the two: the six calls.
pub(crate) trait Side {
    fn boot(memory: &mut [u8], catch_words: &[u64]) -> RankCalled;
    fn write(rank: Record, memory: &mut [u8], line: u32, data: &[u8]) -> RankCalled;
    fn read(rank: Record, memory: &mut [u8], task: u32, line: u32, buffer: &mut [u8]) -> RankRead;
    fn patrol(rank: Record, memory: &mut [u8], task: u32, first: u32, budget: u32) -> RankPatrol;
    fn renew(rank: Record, chip: u32, catch_word: u64) -> RankCalled;
    fn fault(rank: Record, memory: &mut [u8], line: u32, chip: u32, pattern: &[u8]) -> RankCalled;
}

pub(crate) struct Library;

// What each SAFETY below stands on: pointers and lengths are those of slices, with a length of 0 a pointer is not used, a `&mut` slice
// overlaps no other, and the archive has the structs that are declared, or the two sides would not agree.
impl Side for Library {
    #[inline(always)]
    fn boot(memory: &mut [u8], catch_words: &[u64]) -> RankCalled {
        // SAFETY: both are slices, and `memory` is `&mut`.
        unsafe { ffi::rank_boot(memory.as_mut_ptr(), memory.len(), catch_words.as_ptr(), catch_words.len()) }
    }
    #[inline(always)]
    fn write(rank: Record, memory: &mut [u8], line: u32, data: &[u8]) -> RankCalled {
        // SAFETY: both are slices, and `memory` is `&mut`.
        unsafe { ffi::rank_write(rank, memory.as_mut_ptr(), memory.len(), line, data.as_ptr(), data.len()) }
    }
    #[inline(always)]
    fn read(rank: Record, memory: &mut [u8], task: u32, line: u32, buffer: &mut [u8]) -> RankRead {
        // SAFETY: both are `&mut` slices.
        unsafe { ffi::rank_read(rank, memory.as_mut_ptr(), memory.len(), task, line, buffer.as_mut_ptr(), buffer.len()) }
    }
    #[inline(always)]
    fn patrol(rank: Record, memory: &mut [u8], task: u32, first: u32, budget: u32) -> RankPatrol {
        // SAFETY: `memory` is a `&mut` slice.
        unsafe { ffi::rank_patrol(rank, memory.as_mut_ptr(), memory.len(), task, first, budget) }
    }
    #[inline(always)]
    fn renew(rank: Record, chip: u32, catch_word: u64) -> RankCalled {
        // SAFETY: no pointer is passed.
        unsafe { ffi::rank_renew(rank, chip, catch_word) }
    }
    #[inline(always)]
    fn fault(rank: Record, memory: &mut [u8], line: u32, chip: u32, pattern: &[u8]) -> RankCalled {
        // SAFETY: both are slices, and `memory` is `&mut`.
        unsafe { ffi::rank_fault(rank, memory.as_mut_ptr(), memory.len(), line, chip, pattern.as_ptr(), pattern.len()) }
    }
}

pub(crate) struct Fast;

impl Side for Fast {
    #[inline(always)]
    fn boot(memory: &mut [u8], catch_words: &[u64]) -> RankCalled {
        fast::boot(memory, catch_words)
    }
    #[inline(always)]
    fn write(rank: Record, memory: &mut [u8], line: u32, data: &[u8]) -> RankCalled {
        fast::write(rank, memory, line, data)
    }
    #[inline(always)]
    fn read(rank: Record, memory: &mut [u8], task: u32, line: u32, buffer: &mut [u8]) -> RankRead {
        fast::read(rank, memory, task, line, buffer)
    }
    #[inline(always)]
    fn patrol(rank: Record, memory: &mut [u8], task: u32, first: u32, budget: u32) -> RankPatrol {
        fast::patrol(rank, memory, task, first, budget)
    }
    #[inline(always)]
    fn renew(rank: Record, chip: u32, catch_word: u64) -> RankCalled {
        fast::renew(rank, chip, catch_word)
    }
    #[inline(always)]
    fn fault(rank: Record, memory: &mut [u8], line: u32, chip: u32, pattern: &[u8]) -> RankCalled {
        fast::fault(rank, memory, line, chip, pattern)
    }
}
