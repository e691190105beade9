//! A rank on the static library.
use lemtskavo::ffi::Record;

use crate::call::{Call, Kind, Outcome};
use crate::guarded::{Guarded, lend};
use crate::library;
use crate::model::code::Status;
use crate::model::device;
use crate::tally::Tally;

/// A booted rank: the record that the last call returned, and the lent memory.
#[derive(Clone, Debug)]
pub struct Booted {
    pub record: Record,
    pub memory: Guarded<u8>,
}

impl Booted {
    /// Boots on memory that is not clear before.
    pub fn new(lines: usize, catch_words: [u64; 9], tally: &mut Tally) -> Booted {
        let mut memory = lend(&vec![0xEE; 81 * lines]);
        let called = library::boot(&mut memory, &catch_words);
        tally.call(Kind::Boot, called.refusal);
        assert_eq!((called.refusal, called.rank.repairs), (0, [0; 8]), "boot gives totals of 0");
        Booted { record: called.rank, memory }
    }

    /// Makes a call, keeps its record and counts what it came to.
    pub fn call(&mut self, call: &Call, tally: &mut Tally) -> Outcome {
        let statuses = statuses_before(call, self.memory.inside());
        let outcome = call.on_library(self.record, &mut self.memory);
        tally.call(call.kind(), outcome.refusal);
        if let Some(statuses) = statuses {
            tally.step_5(statuses, &outcome);
        }
        self.record = outcome.record;
        outcome
    }
}

/// What the nine chips of the line of a read tell before it; nothing for other calls and other lines.
fn statuses_before(call: &Call, memory: &[u8]) -> Option<[Status; 9]> {
    match call {
        Call::Read { line, .. } if (*line as usize) < memory.len() / 81 => Some(device::statuses(memory, *line)),
        _ => None,
    }
}
