//! Bad rows (document 02, Req 04): one chip is damaged in many lines of a row, and some of them have another bad chip.
use crate::arguments::{Arguments, other_chip};
use crate::call::Call;
use crate::model::code::{Cell, Status};
use crate::patterns::{random_bits, random_with};
use crate::random::Random;

/// The other lines of the row of a line, in a rank of so many.
pub fn other_lines(line: u32, lines: u32) -> Vec<u32> {
    (0..lines).filter(|other| *other != line && other / 128 == line / 128).collect()
}

/// In how many other lines a chip has to be flagged to be blamed, of so many.
pub fn enough(others: usize) -> usize {
    others.div_ceil(10)
}

/// Ranks of one row and of several, the last of them short or of one line.
pub const RANKS: [usize; 13] = [2, 8, 11, 12, 21, 22, 127, 128, 129, 130, 140, 256, 257];

/// Makes bad rows among the calls of a list. The calls of one come one after another.
#[derive(Clone, Debug)]
pub struct BadRows {
    /// Of 100 calls outside a bad row so many begin one.
    often: usize,
    /// The calls that are still to come, the next one last.
    waiting: Vec<Call>,
}

impl BadRows {
    pub fn new(often: usize) -> BadRows {
        BadRows { often, waiting: Vec::new() }
    }

    /// The next call of a bad row; nothing if there is none now.
    pub fn next(&mut self, arguments: &Arguments, random: &mut Random) -> Option<Call> {
        if self.waiting.is_empty() && random.chance(self.often) {
            self.waiting = bad_row(arguments, random);
            self.waiting.reverse();
        }
        self.waiting.pop()
    }

    /// Whether calls of a bad row are still to come.
    pub fn is_under_way(&self) -> bool {
        !self.waiting.is_empty()
    }
}

/// Faults that make a row bad, and then a read or a patrol.
fn bad_row(arguments: &Arguments, random: &mut Random) -> Vec<Call> {
    let wanted = arguments.right_line(random);
    let others = other_lines(wanted, arguments.lines);
    let bad = random.number(9);
    let task = random.pick(&arguments.tasks);
    let patrol = Call::Patrol { task, first: wanted - wanted % 128, budget: 128 };
    // Some rows are repaired before, so that little other damage is counted.
    let mut calls = if random.chance(60) { vec![patrol.clone()] } else { Vec::new() };
    calls.extend(hits(bad, &others, random));
    // Another chip that is hit often enough too, or nearly so; it is flagged on the wanted line at times.
    if random.chance(25) {
        calls.extend(hits(other_chip(bad, random), &others, random));
    }
    let other = other_chip(bad, random);
    calls.extend(match random.below(20) {
        0..=15 => undecided(wanted, bad, other, random),
        // Outside the premise if the bad chip is blamed.
        16 | 17 => undecided(wanted, other, bad, random),
        _ => undecided(wanted, other, other_chip(other, random), random),
    });
    let read = Call::Read { task, line: wanted, buffer: random.bytes(64) };
    calls.push(if random.chance(70) { read } else { patrol });
    calls
}

/// Damage to one chip in as many of the lines as are enough, one fewer, or more.
fn hits(chip: u32, lines: &[u32], random: &mut Random) -> Vec<Call> {
    let enough = enough(lines.len());
    let count = match random.below(8) {
        0..=1 => enough.saturating_sub(1),
        2..=5 => enough,
        _ => enough + random.below(lines.len() - enough + 1),
    };
    let mut left = lines.to_vec();
    let mut calls = Vec::new();
    for _ in 0..count {
        let line = left.swap_remove(random.below(left.len()));
        if random.chance(10) {
            calls.extend(undecided(line, chip, other_chip(chip, random), random));
        } else {
            let bits = 1 + 2 * random.below(2);
            calls.push(fault(line, chip, random_bits(random, bits)));
        }
    }
    calls
}

/// Damage that a line's own bytes leave undecided: many bits in one chip, which its code takes for one, and one bit in another.
fn undecided(line: u32, wide: u32, other: u32, random: &mut Random) -> [Call; 2] {
    [fault(line, wide, random_with(Status::Mended, random)), fault(line, other, random_bits(random, 1))]
}

fn fault(line: u32, chip: u32, pattern: Cell) -> Call {
    Call::Fault { line, chip, pattern: pattern.to_vec() }
}
