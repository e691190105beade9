//! Document 01 without "Plain memory", with document 02's Req 01, Req 02 and Req 04: the record, the memory, the visit by its steps and the
//! six calls.
mod refusals;
mod row;
mod visit;

use refusals::{
    first_met, first_met_after_state, no_chip, no_line, no_line_buffer, no_pattern, no_rank, no_task, not_nine, not_ready, registers_differ,
};
use visit::{lay, place, visit, xor};

pub use visit::{Step5, held, statuses};

/// "Line L begins at byte 81 × L" ("The rank").
const LINE: usize = 81;

/// The record, held by value ("The rank").
#[derive(Clone, Copy, Debug, PartialEq, Eq)]
pub struct Record {
    pub lines: u32,
    pub enable: bool,
    pub catch_words: [u64; 9],
    pub registers: [u64; 9],
    /// "The record's one total becomes eight" (Req 01).
    pub totals: [u32; 8],
}

impl Record {
    /// "A rank has N lines, 1 to 65,536" ("The rank").
    pub const LIMIT: u32 = 65_536;

    /// By how much a colliding chip's catch-word grows ("A visit to a line", step 6).
    pub const STEP: u64 = 0x9E37_79B9_7F4A_7C15;

    /// "Its fresh value (every field zero)" ("The rank").
    pub fn fresh() -> Record {
        Record { lines: 0, enable: false, catch_words: [0; 9], registers: [0; 9], totals: [0; 8] }
    }
}

/// What boot, write, renew and fault return.
#[derive(Clone, Copy, Debug)]
pub struct Called {
    pub refusal: u32,
    pub record: Record,
}

/// What a read returns: also the passes made and the two masks ("A visit to a line").
#[derive(Clone, Copy, Debug)]
pub struct Read {
    pub refusal: u32,
    pub passes: u32,
    pub flagged: u32,
    pub collisions: u32,
    pub record: Record,
}

/// What a patrol returns: lines visited, lines refused and words rewritten ("The calls").
#[derive(Clone, Copy, Debug)]
pub struct Patrol {
    pub refusal: u32,
    pub visited: u32,
    pub refused: u32,
    pub rewritten: u32,
    pub record: Record,
}

/// Boot ("The calls"). "A refused boot returns one with every field zero."
pub fn boot(memory: &mut [u8], catch_words: &[u64]) -> Called {
    let refusal = first_met(&[no_rank(memory), not_nine(catch_words)]);
    if refusal != 0 {
        return Called { refusal, record: Record::fresh() };
    }
    memory.fill(0);
    let catch_words: [u64; 9] = catch_words.try_into().unwrap();
    let lines = (memory.len() / LINE) as u32;
    Called { refusal, record: Record { lines, enable: true, catch_words, registers: catch_words, totals: [0; 8] } }
}

/// Write: "lays nine codewords of 64 bytes" ("The calls").
pub fn write(record: Record, memory: &mut [u8], line: u32, data: &[u8]) -> Called {
    let refusal = first_met_after_state(&record, memory, &[no_line(&record, line), no_line_buffer(data)]);
    if refusal == 0 {
        let words: Vec<u64> = data.chunks(8).map(|bytes| u64::from_be_bytes(bytes.try_into().unwrap())).collect();
        for (chip, &word) in words.iter().enumerate() {
            lay(memory, line, chip, word);
        }
        lay(memory, line, 8, xor(&words));
    }
    Called { refusal, record }
}

/// Read: "a visit that puts the line in a 64-byte buffer" ("The calls"), for a task (Req 01).
pub fn read(record: Record, memory: &mut [u8], task: u32, line: u32, buffer: &mut [u8]) -> Read {
    read_by(Step5::Req04, record, memory, task, line, buffer)
}

/// The same call by one of the forms that step 5 has had.
pub fn read_by(by: Step5, mut record: Record, memory: &mut [u8], task: u32, line: u32, buffer: &mut [u8]) -> Read {
    let refusal = first_met_after_state(&record, memory, &[no_task(task), no_line(&record, line), no_line_buffer(buffer)]);
    if refusal != 0 {
        return Read { refusal, passes: 0, flagged: 0, collisions: 0, record };
    }
    let visit = visit(by, &mut record, memory, task, line);
    let refusal = match visit.words {
        Ok(words) => {
            for chip in 0..8 {
                buffer[8 * chip..8 * chip + 8].copy_from_slice(&words[chip].to_be_bytes());
            }
            0
        }
        Err(refusal) => refusal,
    };
    Read { refusal, passes: visit.passes, flagged: visit.flagged, collisions: visit.collisions, record }
}

/// Patrol: "visits min(budget, N − first) lines", and "a refused line doesn't stop it" ("The calls"). One task is named "for all their
/// visits" (Req 01).
pub fn patrol(record: Record, memory: &mut [u8], task: u32, first: u32, budget: u32) -> Patrol {
    let refusal = first_met_after_state(&record, memory, &[no_task(task), no_line(&record, first)]);
    let mut patrol = Patrol { refusal, visited: 0, refused: 0, rewritten: 0, record };
    if refusal != 0 {
        return patrol;
    }
    for line in first..first + budget.min(record.lines - first) {
        let visit = visit(Step5::Req04, &mut patrol.record, memory, task, line);
        patrol.visited += 1;
        match visit.words {
            Ok(_) => patrol.rewritten += visit.flagged.count_ones(),
            Err(_) => patrol.refused += 1,
        }
    }
    patrol
}

/// Renew: "gives one chip a catch-word of any value, in both copies" ("The calls"). "A test of something that a call is not given (renew
/// has no memory) is passed over" ("Order").
pub fn renew(mut record: Record, chip: u32, catch_word: u64) -> Called {
    let refusal = first_met(&[not_ready(&record), registers_differ(&record), no_chip(chip)]);
    if refusal == 0 {
        record.catch_words[chip as usize] = catch_word;
        record.registers[chip as usize] = catch_word;
    }
    Called { refusal, record }
}

/// Fault: "xors nine bytes (a pattern) into one chip of one line" ("The calls").
pub fn fault(record: Record, memory: &mut [u8], line: u32, chip: u32, pattern: &[u8]) -> Called {
    let refusal = first_met_after_state(&record, memory, &[no_line(&record, line), no_chip(chip), no_pattern(pattern)]);
    if refusal == 0 {
        for (byte, flips) in memory[place(line, chip as usize)].iter_mut().zip(pattern) {
            *byte ^= flips;
        }
    }
    Called { refusal, record }
}
