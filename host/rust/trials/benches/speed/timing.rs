//! The pieces of work, as they are timed: loops over the lines of a part of a rank.
use std::hint::black_box;
use std::ops::Range;
use std::time::Instant;

use lemtskavo::LINE_BYTES;
use lemtskavo::ffi::Record;

use crate::sides::Side;
use crate::{PART, ROW, TASK, Work};

/// A record and the memory that it describes. Aligned, so that the record's copies cost both sides the same.
#[repr(align(64))]
pub(crate) struct Booted {
    pub(crate) rank: Record,
    pub(crate) memory: Vec<u8>,
}

pub(crate) fn bytes_of(part: &Range<u32>) -> Range<usize> {
    LINE_BYTES * part.start as usize..LINE_BYTES * part.end as usize
}

/// Nanoseconds for a line of the work; for a diagnosis, for a row.
pub(crate) fn timed<S: Side>(work: Work, booted: &mut Booted, data: &[[u8; 64]], part: Range<u32>) -> f64 {
    match work {
        Work::Read => per_line(PART, || reads::<S>(booted, part, 0, 1)),
        Work::Rebuild => per_line(PART, || reads::<S>(booted, part, 0, 2)),
        Work::Mend | Work::MendLast | Work::MendAndRebuild => per_line(PART, || reads::<S>(booted, part, 0, 3)),
        Work::Diagnose => per_line(PART / ROW, || reads::<S>(booted, part.step_by(ROW as usize), 21, 3 + 2 * (ROW - 1))),
        Work::Write => per_line(PART, || writes::<S>(booted, part, data)),
        Work::Patrol => per_line(PART, || patrols::<S>(booted, part)),
        Work::Boot => per_line(booted.rank.lines, || boots::<S>(booted)),
        Work::Refused => per_line(PART, || refused_renews::<S>(booted)),
    }
}

fn per_line(lines: u32, work: impl FnOnce()) -> f64 {
    let start = Instant::now();
    work();
    start.elapsed().as_nanos() as f64 / f64::from(lines)
}

/// Reads lines. Each read must end with this refusal, 0 for none, after so many passes.
fn reads<S: Side>(booted: &mut Booted, lines: impl Iterator<Item = u32>, refusal: u32, passes: u32) {
    let mut buffer = [0; 64];
    let mut other = 0;
    for line in lines {
        let read = S::read(booted.rank, &mut booted.memory, black_box(TASK), black_box(line), black_box(&mut buffer));
        other += u32::from(read.refusal != refusal || read.passes != passes);
        booted.rank = read.rank;
    }
    assert_eq!(other, 0);
}

fn writes<S: Side>(booted: &mut Booted, part: Range<u32>, data: &[[u8; 64]]) {
    let mut refused = 0;
    for line in part {
        let called = S::write(booted.rank, &mut booted.memory, black_box(line), black_box(&data[line as usize]));
        refused += called.refusal;
        booted.rank = called.rank;
    }
    assert_eq!(refused, 0);
}

fn patrols<S: Side>(booted: &mut Booted, part: Range<u32>) {
    let done = S::patrol(booted.rank, black_box(&mut booted.memory), black_box(TASK), part.start, PART);
    assert!(done.refusal == 0 && done.visited == PART && done.refused == 0 && done.rewritten == 0);
    booted.rank = done.rank;
}

fn boots<S: Side>(booted: &mut Booted) {
    let called = S::boot(black_box(&mut booted.memory), &booted.rank.catch_words);
    assert_eq!(called.refusal, 0);
    booted.rank = called.rank;
}

fn refused_renews<S: Side>(booted: &mut Booted) {
    let mut accepted = 0;
    for _ in 0..PART {
        let called = S::renew(booted.rank, black_box(9), 0);
        accepted += u32::from(called.refusal != 3);
        booted.rank = called.rank;
    }
    assert_eq!(accepted, 0);
}

/// The limit: the bytes of each line copied, for a diagnosis those of the row; for boot all of them cleared; for a refused call its record
/// copied.
pub(crate) fn timed_copy(work: Work, plain: &mut [u8], part: Range<u32>) -> f64 {
    match work {
        Work::Boot => per_line((plain.len() / LINE_BYTES) as u32, || clear(black_box(plain))),
        Work::Refused => per_line(PART, || copies(black_box(&[[0; size_of::<Record>()]; 1]), PART)),
        Work::Diagnose => per_line(PART / ROW, || copies(plain[bytes_of(&part)].as_chunks::<LINE_BYTES>().0, PART)),
        _ => per_line(PART, || copies(plain[bytes_of(&part)].as_chunks::<LINE_BYTES>().0, PART)),
    }
}

fn copies<const BYTES: usize>(chunks: &[[u8; BYTES]], count: u32) {
    let mut to = [0; BYTES];
    for from in chunks.iter().cycle().take(count as usize) {
        copy(black_box(from), black_box(&mut to));
    }
}

#[inline(never)]
fn copy<const BYTES: usize>(from: &[u8; BYTES], to: &mut [u8; BYTES]) {
    to.copy_from_slice(from);
}

#[inline(never)]
fn clear(memory: &mut [u8]) {
    memory.fill(0);
}
