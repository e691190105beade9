//! The calls over a record and its memory. Each stores the record that came back, after a refusal too.
//!
//! Whoever calls holds both and sees to it that they belong together, as [`Rank`](crate::Rank) does; here that is no matter of safety.
use crate::ffi::{self, Record};
use crate::{CHIPS, DATA_BYTES, PATTERN_BYTES, Patrol, Read, Refusal, RefusedRead, Visit};

// What each SAFETY below stands on. Pointer and length are those of a slice or an array behind a reference: the pointer is aligned, and
// valid for the length, to be written too if the reference is `&mut`. That of an empty slice dangles and is never null, and the library
// does not use it. A `&mut` shares no byte with another reference. `boot` has compared the archive's version, and comes before all.

pub(crate) fn boot(memory: &mut [u8], catch_words: &[u64; CHIPS]) -> Result<Record, Refusal> {
    assert!(ffi::rank_version() == ffi::VERSION, "librank.a has another version of the interface");
    // SAFETY: `memory` is a `&mut` slice, empty or not, and `catch_words` a reference to an array.
    let called = unsafe { ffi::rank_boot(memory.as_mut_ptr(), memory.len(), catch_words.as_ptr(), CHIPS) };
    Refusal::check(called.refusal)?;
    Ok(called.rank)
}

pub(crate) fn write(record: &mut Record, memory: &mut [u8], line: u32, data: &[u8; DATA_BYTES]) -> Result<(), Refusal> {
    // SAFETY: `memory` is a `&mut` slice, empty or not, and `data` a reference to an array.
    let called = unsafe { ffi::rank_write(*record, memory.as_mut_ptr(), memory.len(), line, data.as_ptr(), DATA_BYTES) };
    *record = called.rank;
    Refusal::check(called.refusal)
}

pub(crate) fn read(record: &mut Record, memory: &mut [u8], task: u32, line: u32) -> Result<Read, RefusedRead> {
    let mut data = [0; DATA_BYTES];
    // SAFETY: `memory` is a `&mut` slice, empty or not, and `data` an array of this function.
    let read = unsafe { ffi::rank_read(*record, memory.as_mut_ptr(), memory.len(), task, line, data.as_mut_ptr(), DATA_BYTES) };
    *record = read.rank;
    let visit = Visit { passes: read.passes, flagged: read.flagged, collisions: read.collisions };
    match Refusal::check(read.refusal) {
        Ok(()) => Ok(Read { data, visit }),
        Err(refusal) => Err(RefusedRead { refusal, visit }),
    }
}

pub(crate) fn patrol(record: &mut Record, memory: &mut [u8], task: u32, first: u32, budget: u32) -> Result<Patrol, Refusal> {
    // SAFETY: `memory` is a `&mut` slice, empty or not.
    let patrol = unsafe { ffi::rank_patrol(*record, memory.as_mut_ptr(), memory.len(), task, first, budget) };
    *record = patrol.rank;
    Refusal::check(patrol.refusal)?;
    Ok(Patrol { visited: patrol.visited, refused: patrol.refused, rewritten: patrol.rewritten })
}

pub(crate) fn renew(record: &mut Record, chip: u32, catch_word: u64) -> Result<(), Refusal> {
    // SAFETY: no pointer is passed.
    let called = unsafe { ffi::rank_renew(*record, chip, catch_word) };
    *record = called.rank;
    Refusal::check(called.refusal)
}

pub(crate) fn fault(record: &mut Record, memory: &mut [u8], line: u32, chip: u32, pattern: &[u8; PATTERN_BYTES]) -> Result<(), Refusal> {
    // SAFETY: `memory` is a `&mut` slice, empty or not, and `pattern` a reference to an array.
    let called = unsafe { ffi::rank_fault(*record, memory.as_mut_ptr(), memory.len(), line, chip, pattern.as_ptr(), PATTERN_BYTES) };
    *record = called.rank;
    Refusal::check(called.refusal)
}
