//! A call with its arguments, made on the library or on the device model, and what it gives.
use lemtskavo::ffi::{RankCalled, RankPatrol, RankRead, Record};

use crate::guarded::Guarded;
use crate::library;
use crate::model::device::{self, Step5};

/// One call of a fault list with its arguments; a read's buffer as it is before the call.
#[derive(Clone, Debug)]
pub enum Call {
    Write { line: u32, data: Vec<u8> },
    Read { task: u32, line: u32, buffer: Vec<u8> },
    Patrol { task: u32, first: u32, budget: u32 },
    Renew { chip: u32, catch_word: u64 },
    Fault { line: u32, chip: u32, pattern: Vec<u8> },
}

/// Which of the six calls it is.
#[derive(Clone, Copy, Debug, PartialEq, Eq)]
pub enum Kind {
    Boot,
    Write,
    Read,
    Patrol,
    Renew,
    Fault,
}

impl Kind {
    /// Boot, then the calls of fault lists.
    pub const ALL: [Kind; 6] = [Kind::Boot, Kind::Write, Kind::Read, Kind::Patrol, Kind::Renew, Kind::Fault];

    /// The refusals that it can have, 0 for none.
    pub fn possible(self) -> &'static [u32] {
        match self {
            Kind::Boot => &[0, 5, 11],
            Kind::Write => &[0, 1, 2, 12, 13, 14],
            Kind::Read => &[0, 1, 2, 12, 13, 14, 20, 21, 31],
            Kind::Patrol => &[0, 1, 12, 13, 14, 31],
            Kind::Renew => &[0, 3, 12, 14],
            Kind::Fault => &[0, 1, 3, 4, 12, 13, 14],
        }
    }
}

/// What a call gives: for a read, counts are passes and the two masks; for a patrol, visited, refused and rewritten.
#[derive(Clone, Debug, PartialEq)]
pub struct Outcome {
    pub refusal: u32,
    pub counts: [u32; 3],
    pub record: Record,
    pub buffer: Vec<u8>,
}

impl Call {
    pub fn kind(&self) -> Kind {
        match self {
            Call::Write { .. } => Kind::Write,
            Call::Read { .. } => Kind::Read,
            Call::Patrol { .. } => Kind::Patrol,
            Call::Renew { .. } => Kind::Renew,
            Call::Fault { .. } => Kind::Fault,
        }
    }

    /// The task that it names, for a read or a patrol.
    pub fn task(&self) -> Option<u32> {
        match self {
            Call::Read { task, .. } | Call::Patrol { task, .. } => Some(*task),
            _ => None,
        }
    }

    /// How many words it rewrote, by what it gave: a read's flagged chips if it was answered, a patrol's own count.
    pub fn rewritten(&self, outcome: &Outcome) -> u32 {
        match self {
            Call::Read { .. } if outcome.refusal == 0 => outcome.counts[1].count_ones(),
            Call::Patrol { .. } => outcome.counts[2],
            _ => 0,
        }
    }

    /// Makes the call on the static library.
    pub fn on_library(&self, record: Record, memory: &mut Guarded<u8>) -> Outcome {
        match self {
            Call::Write { line, data } => library::write(record, memory, *line, data).into(),
            Call::Read { task, line, buffer } => {
                let (read, buffer) = library::read(record, memory, *task, *line, buffer);
                Outcome { buffer, ..read.into() }
            }
            Call::Patrol { task, first, budget } => library::patrol(record, memory, *task, *first, *budget).into(),
            Call::Renew { chip, catch_word } => library::renew(record, *chip, *catch_word).into(),
            Call::Fault { line, chip, pattern } => library::fault(record, memory, *line, *chip, pattern).into(),
        }
    }

    /// Makes the call on the device model.
    pub fn on_model(&self, record: Record, memory: &mut [u8]) -> Outcome {
        let record = model_record(record);
        match self {
            Call::Write { line, data } => device::write(record, memory, *line, data).into(),
            Call::Read { task, line, buffer } => {
                let mut buffer = buffer.clone();
                let read = device::read(record, memory, *task, *line, &mut buffer);
                Outcome { buffer, ..read.into() }
            }
            Call::Patrol { task, first, budget } => device::patrol(record, memory, *task, *first, *budget).into(),
            Call::Renew { chip, catch_word } => device::renew(record, *chip, *catch_word).into(),
            Call::Fault { line, chip, pattern } => device::fault(record, memory, *line, *chip, pattern).into(),
        }
    }
}

/// A read on the device model by one of the forms that step 5 has had, on a copy of the memory. It gives the copy too.
pub fn read_by(by: Step5, record: Record, memory: &[u8], task: u32, line: u32, buffer: &[u8]) -> (Outcome, Vec<u8>) {
    let (mut memory, mut buffer) = (memory.to_vec(), buffer.to_vec());
    let read = device::read_by(by, model_record(record), &mut memory, task, line, &mut buffer);
    (Outcome { buffer, ..read.into() }, memory)
}

/// The library's record as the model's.
fn model_record(record: Record) -> device::Record {
    let Record { lines, enable, catch_words, registers, repairs } = record;
    device::Record { lines, enable, catch_words, registers, totals: repairs }
}

/// The model's record as the library's.
pub fn library_record(record: device::Record) -> Record {
    let device::Record { lines, enable, catch_words, registers, totals } = record;
    Record { lines, enable, catch_words, registers, repairs: totals }
}

impl Outcome {
    fn new(refusal: u32, counts: [u32; 3], record: Record) -> Outcome {
        Outcome { refusal, counts, record, buffer: Vec::new() }
    }
}

impl From<RankCalled> for Outcome {
    fn from(called: RankCalled) -> Outcome {
        Outcome::new(called.refusal, [0; 3], called.rank)
    }
}

impl From<RankRead> for Outcome {
    fn from(read: RankRead) -> Outcome {
        Outcome::new(read.refusal, [read.passes, read.flagged, read.collisions], read.rank)
    }
}

impl From<RankPatrol> for Outcome {
    fn from(patrol: RankPatrol) -> Outcome {
        Outcome::new(patrol.refusal, [patrol.visited, patrol.refused, patrol.rewritten], patrol.rank)
    }
}

impl From<device::Called> for Outcome {
    fn from(called: device::Called) -> Outcome {
        Outcome::new(called.refusal, [0; 3], library_record(called.record))
    }
}

impl From<device::Read> for Outcome {
    fn from(read: device::Read) -> Outcome {
        Outcome::new(read.refusal, [read.passes, read.flagged, read.collisions], library_record(read.record))
    }
}

impl From<device::Patrol> for Outcome {
    fn from(patrol: device::Patrol) -> Outcome {
        Outcome::new(patrol.refusal, [patrol.visited, patrol.refused, patrol.rewritten], library_record(patrol.record))
    }
}
