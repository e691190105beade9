//! A rank on the static library and on the device model.
use lemtskavo::ffi::Record;

use crate::booted::Booted;
use crate::call::{Call, Kind, Outcome, read_by};
use crate::guarded::lend;
use crate::library;
use crate::model::code;
use crate::model::device::{self, Step5};
use crate::tally::Tally;

/// The task that a call names where it is no matter which.
pub const TASK: u32 = 5;

/// What a read's buffer is filled with before.
pub const UNREAD: [u8; 64] = [0x5A; 64];

/// One rank on both, always with one record and equal memories.
#[derive(Clone, Debug)]
pub struct Twin {
    pub library: Booted,
    pub model: Vec<u8>,
}

impl Twin {
    /// Boots both on memory that is not clear before.
    pub fn boot(length: usize, catch_words: &[u64], tally: &mut Tally) -> (u32, Twin) {
        let mut model: Vec<u8> = (0..length).map(|place| 0xC3 ^ place as u8).collect();
        let mut memory = lend(&model);
        let called = library::boot(&mut memory, catch_words);
        let expected = Outcome::from(device::boot(&mut model, catch_words));
        tally.call(Kind::Boot, called.refusal);
        let context = format!("boot of {length} bytes with {} catch-words", catch_words.len());
        assert_eq!(Outcome::from(called), expected, "{context}");
        assert!(memory.inside() == model, "{context}: the memories differ");
        (called.refusal, Twin { library: Booted { record: called.rank, memory }, model })
    }

    /// A rank of so many lines.
    pub fn new(lines: usize, catch_words: [u64; 9], tally: &mut Tally) -> Twin {
        let (refusal, twin) = Twin::boot(81 * lines, &catch_words, tally);
        assert_eq!(refusal, 0);
        twin
    }

    pub fn record(&self) -> Record {
        self.library.record
    }

    /// Makes one call on both and compares all that comes back and all that is lent.
    pub fn call(&mut self, call: &Call, tally: &mut Tally) -> Outcome {
        let given = self.record();
        let expected = call.on_model(given, &mut self.model);
        let outcome = self.library.call(call, tally);
        assert_eq!(outcome, expected, "{call:?}\nwith {given:?}");
        assert!(self.library.memory.inside() == self.model, "{call:?}\nwith {given:?}: the memories differ");
        outcome
    }

    pub fn write(&mut self, line: u32, data: &[u8], tally: &mut Tally) -> u32 {
        self.call(&Call::Write { line, data: data.to_vec() }, tally).refusal
    }

    pub fn read(&mut self, line: u32, tally: &mut Tally) -> Outcome {
        self.read_for(TASK, line, tally)
    }

    pub fn read_for(&mut self, task: u32, line: u32, tally: &mut Tally) -> Outcome {
        self.call(&Call::Read { task, line, buffer: UNREAD.to_vec() }, tally)
    }

    pub fn patrol(&mut self, first: u32, budget: u32, tally: &mut Tally) -> Outcome {
        self.patrol_for(TASK, first, budget, tally)
    }

    pub fn patrol_for(&mut self, task: u32, first: u32, budget: u32, tally: &mut Tally) -> Outcome {
        self.call(&Call::Patrol { task, first, budget }, tally)
    }

    pub fn renew(&mut self, chip: usize, catch_word: u64, tally: &mut Tally) {
        self.call(&Call::Renew { chip: chip as u32, catch_word }, tally);
    }

    pub fn fault(&mut self, line: u32, chip: u32, pattern: &[u8], tally: &mut Tally) -> u32 {
        self.call(&Call::Fault { line, chip, pattern: pattern.to_vec() }, tally).refusal
    }

    /// What a read would give by one of the forms that step 5 has had, and the memory then; nothing for other calls.
    pub fn read_by(&self, by: Step5, call: &Call) -> Option<(Outcome, Vec<u8>)> {
        let Call::Read { task, line, buffer } = call else { return None };
        Some(read_by(by, self.record(), &self.model, *task, *line, buffer))
    }

    /// Gives both another memory.
    pub fn set_memory(&mut self, bytes: Vec<u8>) {
        self.library.memory = lend(&bytes);
        self.model = bytes;
    }

    pub fn set_length(&mut self, length: usize) {
        let mut bytes = self.model.clone();
        bytes.resize(length, 0x3C);
        self.set_memory(bytes);
    }

    /// The word that a chip of a line holds.
    pub fn word(&self, line: u32, chip: usize) -> u64 {
        code::word(&device::held(&self.model, line, chip))
    }
}
