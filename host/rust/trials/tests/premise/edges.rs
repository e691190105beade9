//! The edge of the premise: every position of the code, and every set of damaged chips.
use lemtskavo_trials::arguments::other_chip;
use lemtskavo_trials::call::{Call, Kind};
use lemtskavo_trials::model::code::{Cell, Status};
use lemtskavo_trials::model::plain::Plain;
use lemtskavo_trials::patterns::{CHECK_03, CHECK_07, WORD_300, one_bit, random_bits, random_with, xor};
use lemtskavo_trials::random::Random;
use lemtskavo_trials::tally::{STEP_5, Tally};

use crate::answers::{Answer, run, under_premise};

/// A list of calls on line 0 of a rank of one line, with the plain memory that it is made against.
struct OneLine {
    plain: Plain,
    list: Vec<(Call, Answer)>,
}

impl OneLine {
    fn new() -> OneLine {
        OneLine { plain: Plain::boot(1), list: Vec::new() }
    }

    fn push(&mut self, call: Call) {
        self.list.push(under_premise(call, &mut self.plain));
    }

    fn write(&mut self, random: &mut Random) {
        self.push(Call::Write { line: 0, data: random.bytes(64) });
    }

    fn fault(&mut self, chip: u32, pattern: Cell) {
        self.push(Call::Fault { line: 0, chip, pattern: pattern.to_vec() });
    }

    fn read(&mut self, task: u32) {
        self.push(Call::Read { task, line: 0, buffer: vec![0; 64] });
    }

    fn run(&self, catch_words: [u64; 9], tally: &mut Tally) {
        run(&self.list, &self.plain.memory(), catch_words, tally);
    }
}

/// Each position of the code in each chip: alone, beside one bit in another chip, and beside many bits of both kinds.
#[test]
fn every_position_at_the_edge_of_the_premise() {
    let mut tally = Tally::new("every position");
    let mut random = tally.random();
    for chip in 0..9 {
        let mut line = OneLine::new();
        for position in 0..72 {
            let other = other_chip(chip, &mut random);
            let beyond = random_with(Status::Beyond, &mut random);
            let mended = random_with(Status::Mended, &mut random);
            let task = position as u32 % 8;
            line.write(&mut random);
            line.fault(chip, one_bit(position));
            line.read(task);
            for beside in [one_bit(71 - position), beyond, mended] {
                line.fault(chip, one_bit(position));
                line.fault(other, beside);
                line.read(task);
            }
            line.fault(chip, one_bit(position));
            line.read(task);
        }
        line.run(random.words(), &mut tally);
        line.run([0; 9], &mut tally);
    }
    tally.print();
    tally.demand(&STEP_5[..3], 1_000);
}

/// One bit in each chip of every set of chips; then many bits in one of them: beyond mending in check byte or word, or mended as one.
#[test]
fn every_set_of_damaged_chips() {
    let mut tally = Tally::new("every set of damaged chips");
    let mut random = tally.random();
    let mut line = OneLine::new();
    for set in 0..1u32 << 9 {
        for wide in [None, Some(CHECK_03), Some(WORD_300), Some(CHECK_07)] {
            line.write(&mut random);
            for chip in (0..9).filter(|chip| set >> chip & 1 == 1) {
                line.fault(chip, random_bits(&mut random, 1));
            }
            if let Some(wide) = wide.filter(|_| set != 0) {
                let chip = set.trailing_zeros();
                line.fault(chip, xor(line.plain.lines[0].patterns[chip as usize], wide));
            }
            line.read(set % 8);
        }
    }
    line.run(random.words(), &mut tally);
    tally.print();
    // Ten sets have fewer than two chips; the others answer three times of four.
    assert_eq!((tally.refused(Kind::Read, 0), tally.refused(Kind::Read, 21)), (10 * 4 + 502 * 3, 502));
}
