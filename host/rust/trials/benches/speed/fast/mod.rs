//! The six calls in safe Rust written for speed, with the same results as the proved library on every input.
//!
//! Words are kept as they stand in the memory, lowest address first: the xor, the remainders and the copies work on them as they are, and
//! only a comparison with a catch-word swaps them. The remainders of eight words are computed at once in 16-bit lanes, two `u64` abreast,
//! which the compiler puts in SSE2 registers. A line is first tested for being clean, by the xor of its words in the call itself and by the
//! rest out of line, so that a clean line's way has a small frame; what that test has worked out of a line that is not clean is handed on.
//!
//! The calls are `extern "C"`, so that a caller hands over the record in the same way on both sides.
#![allow(improper_ctypes_definitions)]
mod lanes;
mod line;
mod row;

use lemtskavo::ffi::{RankCalled, RankPatrol, RankRead, Record};
use lemtskavo::{LINE_BYTES, LINE_LIMIT};
use line::{Line, Scanned, Visit, chips, lay, line_of, repair, rest_is_clean, take, visit, words_xor};

const STEP: u64 = 0x9e37_79b9_7f4a_7c15;
const ZERO: Record = Record { lines: 0, enable: false, catch_words: [0; 9], registers: [0; 9], repairs: [0; 8] };

/// Clears the memory and gives its record.
#[inline(never)]
pub(super) extern "C" fn boot(memory: &mut [u8], catch_words: &[u64]) -> RankCalled {
    let lines = memory.len() / LINE_BYTES;
    if memory.is_empty() || !memory.len().is_multiple_of(LINE_BYTES) || lines > LINE_LIMIT as usize {
        return RankCalled { refusal: 11, rank: ZERO };
    }
    let Ok(catch_words) = <[u64; 9]>::try_from(catch_words) else {
        return RankCalled { refusal: 5, rank: ZERO };
    };
    memory.fill(0);
    RankCalled { refusal: 0, rank: Record { lines: lines as u32, enable: true, catch_words, registers: catch_words, repairs: [0; 8] } }
}

/// Lays the nine codewords of 64 bytes.
#[inline(never)]
pub(super) extern "C" fn write(rank: Record, memory: &mut [u8], line: u32, data: &[u8]) -> RankCalled {
    let refusal = refused_line(&rank, memory.len(), line);
    if refusal != 0 {
        return RankCalled { refusal, rank };
    }
    let Ok(data) = <&[u8; 64]>::try_from(data) else {
        return RankCalled { refusal: 2, rank };
    };
    lay(line_of(memory, line), data);
    RankCalled { refusal: 0, rank }
}

/// Visits a line for a task and puts its 64 bytes in the buffer.
#[inline(never)]
pub(super) extern "C" fn read(rank: Record, memory: &mut [u8], task: u32, line: u32, buffer: &mut [u8]) -> RankRead {
    let refusal = refused_visit(&rank, memory.len(), task, line);
    if refusal != 0 {
        return RankRead { refusal, passes: 0, flagged: 0, collisions: 0, rank };
    }
    let Ok(buffer) = <&mut [u8; 64]>::try_from(buffer) else {
        return RankRead { refusal: 2, passes: 0, flagged: 0, collisions: 0, rank };
    };
    let bytes = line_of(memory, line);
    let mut scanned = Scanned { sum: words_xor(bytes), syndromes: None };
    if scanned.sum == 0 && rest_is_clean(bytes, &rank.catch_words, &mut scanned) {
        take(bytes, buffer);
        return RankRead { refusal: 0, passes: 1, flagged: 0, collisions: 0, rank };
    }
    let mut visit = visit(bytes, &rank.catch_words, scanned);
    if visit.undecided {
        visit = decide(memory, rank.lines, line, visit);
    }
    let Visit { refusal, passes, flagged, collisions, .. } = visit;
    let mut answer = RankRead { refusal, passes, flagged, collisions, rank };
    if refusal == 0 {
        move_and_count(&mut answer.rank, task, flagged, collisions);
        take(line_of(memory, line), buffer);
    }
    answer
}

/// Visits `budget` lines for a task from `first` on, or as many as there are.
#[inline(never)]
pub(super) extern "C" fn patrol(rank: Record, memory: &mut [u8], task: u32, first: u32, budget: u32) -> RankPatrol {
    let refusal = refused_visit(&rank, memory.len(), task, first);
    if refusal != 0 {
        return RankPatrol { refusal, visited: 0, refused: 0, rewritten: 0, rank };
    }
    let visited = budget.min(rank.lines - first);
    let mut answer = RankPatrol { refusal: 0, visited, refused: 0, rewritten: 0, rank };
    let end = first + visited;
    let mut next = first;
    while next < end {
        let lines = &mut memory[LINE_BYTES * next as usize..LINE_BYTES * end as usize];
        let Some((passed, visit)) = sweep(lines.as_chunks_mut().0, task, &mut answer) else { break };
        let line = next + passed as u32;
        tally(&mut answer, task, decide(memory, rank.lines, line, visit));
        next = line + 1;
    }
    answer
}

/// Visits lines up to the first that is undecided, and gives its place and its visit.
#[inline(always)]
fn sweep(lines: &mut [Line], task: u32, answer: &mut RankPatrol) -> Option<(usize, Visit)> {
    for (place, line) in lines.iter_mut().enumerate() {
        let mut scanned = Scanned { sum: words_xor(line), syndromes: None };
        if scanned.sum == 0 && rest_is_clean(line, &answer.rank.catch_words, &mut scanned) {
            continue;
        }
        let visit = visit(line, &answer.rank.catch_words, scanned);
        if visit.undecided {
            return Some((place, visit));
        }
        tally(answer, task, visit);
    }
    None
}

/// Adds a visit to a patrol's counts and does what it does to the record.
#[inline(always)]
fn tally(answer: &mut RankPatrol, task: u32, visit: Visit) {
    if visit.refusal != 0 {
        answer.refused += 1;
        return;
    }
    answer.rewritten += visit.flagged.count_ones();
    move_and_count(&mut answer.rank, task, visit.flagged, visit.collisions);
}

/// How the row decides an undecided visit. An answered line is repaired.
fn decide(memory: &mut [u8], lines: u32, line: u32, visit: Visit) -> Visit {
    let (blamed, others) = row::blamed(memory, lines, line, visit.flagged);
    if blamed != 0 {
        repair(line_of(memory, line), visit.flagged, blamed);
    }
    Visit { undecided: false, refusal: if blamed == 0 { 21 } else { 0 }, passes: visit.passes + 2 * others, ..visit }
}

/// Gives one chip a catch-word, in both copies.
#[inline(never)]
pub(super) extern "C" fn renew(rank: Record, chip: u32, catch_word: u64) -> RankCalled {
    let refusal = refused_record(&rank);
    if refusal != 0 {
        return RankCalled { refusal, rank };
    }
    if chip >= 9 {
        return RankCalled { refusal: 3, rank };
    }
    let mut rank = rank;
    rank.catch_words[chip as usize] = catch_word;
    rank.registers[chip as usize] = catch_word;
    RankCalled { refusal: 0, rank }
}

/// Xors nine bytes into one chip of a line.
#[inline(never)]
pub(super) extern "C" fn fault(rank: Record, memory: &mut [u8], line: u32, chip: u32, pattern: &[u8]) -> RankCalled {
    let refusal = refused_line(&rank, memory.len(), line);
    if refusal != 0 {
        return RankCalled { refusal, rank };
    }
    if chip >= 9 {
        return RankCalled { refusal: 3, rank };
    }
    let Ok(pattern) = <&[u8; 9]>::try_from(pattern) else {
        return RankCalled { refusal: 4, rank };
    };
    let at = 9 * chip as usize;
    for (byte, change) in line_of(memory, line)[at..at + 9].iter_mut().zip(pattern) {
        *byte ^= change;
    }
    RankCalled { refusal: 0, rank }
}

/// Refusals 12 and 14: those of a call without a memory.
#[inline(always)]
fn refused_record(rank: &Record) -> u32 {
    refused_line(rank, LINE_BYTES * rank.lines as usize, 0)
}

/// Refusals 12, 13, 14 and 1, in this order.
#[inline(always)]
fn refused_line(rank: &Record, length: usize, line: u32) -> u32 {
    refused_visit(rank, length, 0, line)
}

/// Refusals 12, 13, 14, 31 and 1, in this order.
#[inline(always)]
fn refused_visit(rank: &Record, length: usize, task: u32, line: u32) -> u32 {
    if !rank.enable || rank.lines.wrapping_sub(1) >= LINE_LIMIT {
        return 12;
    }
    if length != LINE_BYTES * rank.lines as usize {
        return 13;
    }
    // One by one: a wider load would have to wait for the stores of the record that the caller has just made.
    for k in 0..9 {
        if rank.registers[k] != rank.catch_words[k] {
            return 14;
        }
    }
    if task >= 8 {
        return 31;
    }
    if line >= rank.lines {
        return 1;
    }
    0
}

/// The record after an answered visit: colliding chips' catch-words moved, repairs counted for the task.
#[inline(always)]
fn move_and_count(rank: &mut Record, task: u32, flagged: u32, collisions: u32) {
    for chip in chips(collisions) {
        let moved = rank.catch_words[chip].wrapping_add(STEP);
        rank.catch_words[chip] = moved;
        rank.registers[chip] = moved;
    }
    let total = &mut rank.repairs[task as usize];
    *total = total.saturating_add(flagged.count_ones());
}
