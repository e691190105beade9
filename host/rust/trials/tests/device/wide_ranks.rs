//! Ranks whose line numbers need more than 12 and all of 16 bits.
use lemtskavo_trials::model::code;
use lemtskavo_trials::patterns::one_bit;
use lemtskavo_trials::tally::{STEP_5, Tally};
use lemtskavo_trials::twin::Twin;
use lemtskavo_trials::words::STEP;

use crate::list::List;

/// Random lists on ranks of so many lines.
fn lists_on(lines: usize, lists: u64, calls: usize, tally: &mut Tally) {
    tally.lists(0..lists, |random, tally| {
        let mut list = List::new(random, lines, tally);
        for _ in 0..calls {
            list.step(tally);
        }
    });
}

/// A rank of all 65,536 lines: its last line is a line like any other, and 65,536 is not line 0.
#[test]
fn the_widest_rank() {
    let mut tally = Tally::new("65,536 lines");
    assert_eq!(Twin::boot(81 * 65_537, &[8; 9], &mut tally).0, 11);
    let mut random = tally.random();
    let mut twin = Twin::new(65_536, random.words(), &mut tally);
    let data = random.bytes(64);
    assert_eq!(twin.write(65_535, &data, &mut tally), 0);
    assert_eq!(twin.fault(65_535, 8, &[0xFF; 9], &mut tally), 0);
    let read = twin.read(65_535, &mut tally);
    assert_eq!((read.refusal, read.counts, &read.buffer), (0, [2, 0x100, 0], &data));
    for line in [65_536, 65_537, 131_071, 0x8000_FFFF, u32::MAX] {
        assert_eq!(twin.write(line, &data, &mut tally), 1);
        assert_eq!(twin.read(line, &mut tally).refusal, 1);
        assert_eq!(twin.fault(line, 0, &[1; 9], &mut tally), 1);
        assert_eq!(twin.patrol(line, 1, &mut tally).refusal, 1);
    }
    for line in [0, 1, 4_095, 4_096, 32_768, 65_534, 65_535] {
        twin.fault(line, line % 9, &one_bit(line as usize % 72), &mut tally);
        twin.fault(line, (line + 1) % 9, &one_bit(line as usize % 71), &mut tally);
    }
    twin.fault(40_000, 0, &code::codeword(5), &mut tally);
    assert_eq!(twin.clone().patrol(65_535, u32::MAX, &mut tally).counts, [1, 0, 2]);
    assert_eq!(twin.patrol(0, u32::MAX, &mut tally).counts, [65_536, 1, 14]);
    assert_eq!(twin.patrol(0, 65_536, &mut tally).counts, [65_536, 1, 0]);
    // Catch-word 0 meets the cleared words: it moves at the first line visited and meets no other.
    twin.renew(3, 0, &mut tally);
    assert_eq!(twin.patrol(1, 65_535, &mut tally).record.catch_words[3], STEP);
    lists_on(65_536, 8, 100, &mut tally);
    tally.print();
    tally.demand(&["answered read, one flagged"], 5);
}

/// A rank of 4,097 lines: the first number that 12 bits can't hold is a line.
#[test]
fn a_rank_of_4097_lines() {
    let mut tally = Tally::new("4,097 lines");
    let mut twin = Twin::new(4_097, [0x1111_1111_1111_1111; 9], &mut tally);
    assert_eq!(twin.write(4_096, &[0xCC; 64], &mut tally), 0);
    assert_eq!(twin.write(4_097, &[0xDD; 64], &mut tally), 1);
    assert_eq!(twin.read(4_096, &mut tally).buffer, [0xCC; 64]);
    assert_eq!(twin.read(0, &mut tally).buffer, [0; 64]);
    assert_eq!(twin.read(4_097, &mut tally).refusal, 1);
    assert_eq!(twin.patrol(4_096, 2, &mut tally).counts, [1, 0, 0]);
    assert_eq!(twin.patrol(0, u32::MAX, &mut tally).counts, [4_097, 0, 0]);
    lists_on(4_097, 240, 60, &mut tally);
    tally.print();
    let cases = ["answered read, one flagged", "answered read, collision in a data chip", "damage on a line repaired before"];
    tally.demand(&cases, 50);
    tally.demand(&STEP_5, 5);
}
