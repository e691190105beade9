//! The refusals that the wrapper's types rule out, 12, 13, 14, 2, 4 and 5, and a total at its end: tried through the C calls.
use lemtskavo::{CHIPS, LINE_LIMIT, Record, Refusal, TASK_LIMIT};
use lemtskavo_trials::booted::Booted;
use lemtskavo_trials::call::{Call, Kind, Outcome};
use lemtskavo_trials::guarded::lend;
use lemtskavo_trials::library;
use lemtskavo_trials::tally::Tally;

use crate::{CATCH_WORD, NO_RANK, TASK};

/// A rank of two lines, the first with damage in one chip.
fn booted(tally: &mut Tally) -> Booted {
    let mut booted = Booted::new(2, [CATCH_WORD; CHIPS], tally);
    booted.call(&Call::Fault { line: 0, chip: 1, pattern: vec![0xFF; 9] }, tally);
    booted
}

/// Makes a call that is to be refused, and checks that nothing changes.
fn refuses(booted: &Booted, call: &Call, refusal: Refusal) {
    let mut memory = booted.memory.clone();
    let outcome = call.on_library(booted.record, &mut memory);
    let buffer = if let Call::Read { buffer, .. } = call { buffer.clone() } else { Vec::new() };
    assert_eq!(outcome, Outcome { refusal: refusal.number(), counts: [0; 3], record: booted.record, buffer });
    assert_eq!(memory.inside(), booted.memory.inside());
}

/// Each of the five calls is refused with this; a renewal only if it is not about the memory.
fn all_refuse(booted: &Booted, refusal: Refusal, task: u32) {
    let calls = [
        Call::Write { line: 0, data: vec![0; 64] },
        Call::Read { task, line: 0, buffer: vec![0xA5; 64] },
        Call::Patrol { task, first: 0, budget: 1 },
        Call::Fault { line: 0, chip: 0, pattern: vec![1; 9] },
        Call::Renew { chip: 0, catch_word: 5 },
    ];
    for call in calls.iter().filter(|call| refusal != Refusal::MemoryLength || call.kind() != Kind::Renew) {
        refuses(booted, call, refusal);
    }
}

fn with(booted: &Booted, record: Record) -> Booted {
    Booted { record, memory: booted.memory.clone() }
}

#[test]
fn states_that_refuse_every_call() {
    let booted = booted(&mut Tally::new("states"));
    let record = booted.record;
    all_refuse(&with(&booted, Record { enable: false, ..record }), Refusal::NotReady, TASK);
    for lines in [0, LINE_LIMIT + 1, u32::MAX] {
        all_refuse(&with(&booted, Record { lines, ..record }), Refusal::NotReady, TASK);
    }
    for length in [0, 81, 161, 163, 243] {
        all_refuse(&Booted { record, memory: lend(&vec![0; length]) }, Refusal::MemoryLength, TASK);
    }
    for chip in 0..CHIPS {
        let mut differs = record;
        differs.registers[chip] ^= 1;
        all_refuse(&with(&booted, differs), Refusal::RegisterDiffers, TASK);
    }
}

#[test]
fn tasks_not_below_8_are_refused_after_the_state_and_before_the_buffer() {
    let booted = booted(&mut Tally::new("states and tasks"));
    let record = booted.record;
    for task in [8, 9, 15, 16, 255, 256 + 3, 65_536, 1 << 31, u32::MAX] {
        for (line, length) in [(0, 64), (2, 64), (0, 63), (2, 63), (u32::MAX, 0)] {
            refuses(&booted, &Call::Read { task, line, buffer: vec![0xA5; length] }, Refusal::TaskOutOfRange);
        }
        all_refuse(&with(&booted, Record { enable: false, ..record }), Refusal::NotReady, task);
        all_refuse(&Booted { record, memory: lend(&booted.memory.inside()[1..]) }, Refusal::MemoryLength, task);
        all_refuse(&with(&booted, Record { catch_words: [5; CHIPS], ..record }), Refusal::RegisterDiffers, task);
    }
}

#[test]
fn buffers_of_63_and_65_and_patterns_of_8_and_10_are_refused() {
    let booted = booted(&mut Tally::new("lengths"));
    for length in [63, 65] {
        refuses(&booted, &Call::Read { task: TASK, line: 0, buffer: vec![0xA5; length] }, Refusal::BufferLength);
        refuses(&booted, &Call::Write { line: 0, data: vec![1; length] }, Refusal::BufferLength);
    }
    for length in [0, 8, 10, 18] {
        refuses(&booted, &Call::Fault { line: 0, chip: 0, pattern: vec![1; length] }, Refusal::PatternLength);
    }
}

/// A boot is refused, changes nothing and returns a record of zeros.
fn boot_refuses(length: usize, count: usize, refusal: Refusal) {
    let zeros = Record { lines: 0, enable: false, catch_words: [0; CHIPS], registers: [0; CHIPS], repairs: [0; TASK_LIMIT] };
    let mut memory = lend(&vec![0x3C; length]);
    let called = library::boot(&mut memory, &vec![CATCH_WORD; count]);
    assert_eq!((called.refusal, called.rank), (refusal.number(), zeros));
    assert!(memory.inside().iter().all(|byte| *byte == 0x3C));
}

#[test]
fn boot_refuses_11_then_5() {
    for length in NO_RANK {
        boot_refuses(length, 8, Refusal::BootMemoryLength);
        boot_refuses(length, CHIPS, Refusal::BootMemoryLength);
    }
    for count in (0..20).filter(|count| *count != CHIPS) {
        boot_refuses(81, count, Refusal::CatchWordCount);
    }
}

#[test]
fn a_total_that_has_stopped_stays() {
    let mut tally = Tally::new("totals");
    let mut booted = booted(&mut tally);
    booted.record.repairs = [u32::MAX - 1; TASK_LIMIT];
    let mut expected = booted.record.repairs;
    for task in [4, 4, 6] {
        booted.call(&Call::Fault { line: 1, chip: 2, pattern: vec![0xFF; 9] }, &mut tally);
        booted.call(&Call::Read { task, line: 1, buffer: vec![0; 64] }, &mut tally);
        expected[task as usize] = u32::MAX;
        assert_eq!(booted.record.repairs, expected);
    }
}
