//! A rank: a record and its memory, held together.
use core::fmt;

use crate::{CHIPS, DATA_BYTES, PATTERN_BYTES, Patrol, Read, Record, Refusal, RefusedRead, TASK_LIMIT, calls};

/// A rank that was booted: its record and the memory lent to it.
///
/// Only the calls change either, so that three refusals of the C calls can't come: [`Refusal::NotReady`] (12), since the record is that of
/// an accepted boot; [`Refusal::MemoryLength`] (13), since the memory is the one that was booted; and [`Refusal::RegisterDiffers`] (14),
/// since every call keeps both copies of the catch-words equal. [`Refusal::Unknown`] comes from no archive of this version.
///
/// After a refusal the record and every byte of the memory are what they were.
///
/// A task, 0 to 7, is a part of the firmware that uses the buffer. The words that a read or a patrol repairs are added to the total of the
/// task that it names; which of the eight is named changes nothing else.
///
/// A rank can be sent to another thread, and can't be copied. While it lives nothing else has the memory:
///
/// ```compile_fail,E0502
/// # let mut memory = [0; lemtskavo::memory_bytes(1)];
/// let mut rank = lemtskavo::Rank::boot(&mut memory, [0; lemtskavo::CHIPS])?;
/// let byte = memory[0];
/// rank.read(0, 0)?;
/// # Ok::<(), lemtskavo::Refusal>(())
/// ```
#[must_use = "the lines can be read through it alone"]
pub struct Rank<'m> {
    record: Record,
    memory: &'m mut [u8],
}

const _: () = {
    const fn sent_and_shared<T: Send + Sync>() {}
    sent_and_shared::<Rank<'_>>();
};

impl<'m> Rank<'m> {
    /// Makes a rank of as many lines as the memory holds: [`memory_bytes`](crate::memory_bytes) says how long it is. The memory is cleared,
    /// so that every line reads as 64 zeros. Catch-words may have any values, and which they are changes no refusal, line, count, repair or
    /// stored byte; random ones meet stored data, which costs a pass, least often.
    ///
    /// The memory is lent until the rank is dropped or gives it back by [`into_memory`](Rank::into_memory). A refused boot changes no byte
    /// and keeps nothing, so that a caller who lent `&mut memory`, or `&mut *memory` of a reference, has the memory again at once:
    ///
    /// ```
    /// use lemtskavo::{CHIPS, Rank, Refusal, memory_bytes};
    ///
    /// let mut memory = [7; memory_bytes(2) + 1];
    /// assert_eq!(Rank::boot(&mut memory, [0; CHIPS]).unwrap_err(), Refusal::BootMemoryLength);
    /// assert_eq!(memory[0], 7);
    /// let rank = Rank::boot(&mut memory[1..], [0; CHIPS])?;
    /// assert_eq!(rank.lines(), 2);
    /// # Ok::<(), Refusal>(())
    /// ```
    ///
    /// # Errors
    ///
    /// [`Refusal::BootMemoryLength`] (11). The types rule out [`Refusal::CatchWordCount`] (5).
    ///
    /// # Panics
    ///
    /// If the archive that was linked has another version of the interface than [`ffi::VERSION`](crate::ffi::VERSION): its structs may be
    /// others.
    pub fn boot(memory: &'m mut [u8], catch_words: [u64; CHIPS]) -> Result<Rank<'m>, Refusal> {
        let record = calls::boot(memory, &catch_words)?;
        Ok(Rank { record, memory })
    }

    /// Writes a line. Damage that was there is gone.
    ///
    /// # Errors
    ///
    /// [`Refusal::LineOutOfRange`] (1). The types rule out [`Refusal::NotReady`] (12), [`Refusal::MemoryLength`] (13),
    /// [`Refusal::RegisterDiffers`] (14) and [`Refusal::BufferLength`] (2).
    pub fn write(&mut self, line: u32, data: &[u8; DATA_BYTES]) -> Result<(), Refusal> {
        calls::write(&mut self.record, self.memory, line, data)
    }

    /// Visits a line for a task, repairs it and gives its 64 bytes.
    ///
    /// One flagged chip is rebuilt from the other eight; two or more are mended by their own codes, and if one of them is beyond mending,
    /// or is blamed by the other lines of the row, it is rebuilt from the other eight then. Each colliding chip gets another catch-word.
    /// A read that diagnoses the row takes the time of a patrol over it.
    ///
    /// # Errors
    ///
    /// In this order: [`Refusal::TaskOutOfRange`] (31); [`Refusal::LineOutOfRange`] (1); [`Refusal::Unlocated`] (20) or
    /// [`Refusal::Uncorrectable`] (21), with how far the visit came, and the line is refused again until it is written, or, after 21 with
    /// the row diagnosed, until other lines of the row have changed. The types rule out [`Refusal::NotReady`] (12),
    /// [`Refusal::MemoryLength`] (13), [`Refusal::RegisterDiffers`] (14) and [`Refusal::BufferLength`] (2).
    pub fn read(&mut self, task: u32, line: u32) -> Result<Read, RefusedRead> {
        calls::read(&mut self.record, self.memory, task, line)
    }

    /// Visits lines for a task from `first` upwards and repairs them: `budget` of them, or as many as there are up to the last.
    ///
    /// Each line is visited as by [`read`](Rank::read). One that a read would refuse is counted and left as it is, and the patrol goes on.
    ///
    /// # Errors
    ///
    /// In this order: [`Refusal::TaskOutOfRange`] (31); [`Refusal::LineOutOfRange`] (1), of the first line. The types rule out
    /// [`Refusal::NotReady`] (12), [`Refusal::MemoryLength`] (13) and [`Refusal::RegisterDiffers`] (14).
    pub fn patrol(&mut self, task: u32, first: u32, budget: u32) -> Result<Patrol, Refusal> {
        calls::patrol(&mut self.record, self.memory, task, first, budget)
    }

    /// Gives one chip a catch-word of any value, in both copies.
    ///
    /// # Errors
    ///
    /// [`Refusal::ChipOutOfRange`] (3). The types rule out [`Refusal::NotReady`] (12) and [`Refusal::RegisterDiffers`] (14).
    pub fn renew(&mut self, chip: u32, catch_word: u64) -> Result<(), Refusal> {
        calls::renew(&mut self.record, chip, catch_word)
    }

    /// Xors a pattern into one chip of a line: damage, for tests and benches.
    ///
    /// # Errors
    ///
    /// In this order: [`Refusal::LineOutOfRange`] (1); [`Refusal::ChipOutOfRange`] (3). The types rule out [`Refusal::NotReady`] (12),
    /// [`Refusal::MemoryLength`] (13), [`Refusal::RegisterDiffers`] (14) and [`Refusal::PatternLength`] (4).
    pub fn fault(&mut self, line: u32, chip: u32, pattern: &[u8; PATTERN_BYTES]) -> Result<(), Refusal> {
        calls::fault(&mut self.record, self.memory, line, chip, pattern)
    }

    /// N, the lines of the rank, numbered from 0.
    #[must_use]
    pub const fn lines(&self) -> u32 {
        self.record.lines
    }

    /// The words repaired since boot, by task. Each total stops at [`REPAIR_LIMIT`](crate::REPAIR_LIMIT); add them as `u64`.
    #[must_use]
    pub const fn repairs(&self) -> [u32; TASK_LIMIT] {
        self.record.repairs
    }

    /// The record that the last call returned.
    #[must_use]
    pub const fn record(&self) -> &Record {
        &self.record
    }

    /// The memory as the last call left it.
    #[must_use]
    pub const fn memory(&self) -> &[u8] {
        self.memory
    }

    /// Ends the rank and gives the memory back, with the lines as they lie there.
    #[must_use]
    pub fn into_memory(self) -> &'m mut [u8] {
        self.memory
    }
}

/// Shows the record, and of the memory its length alone.
impl fmt::Debug for Rank<'_> {
    fn fmt(&self, f: &mut fmt::Formatter<'_>) -> fmt::Result {
        f.debug_struct("Rank").field("record", &self.record).field("memory", &format_args!("{} bytes", self.memory.len())).finish()
    }
}
