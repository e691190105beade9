//! One random fault list on both sides. Its calls have wrong arguments and broken states at times.
use lemtskavo_trials::arguments::Arguments;
use lemtskavo_trials::bad_row::BadRows;
use lemtskavo_trials::call::Call;
use lemtskavo_trials::model::code;
use lemtskavo_trials::model::device::{self, Step5};
use lemtskavo_trials::patterns::{random_bits, random_check, random_leading};
use lemtskavo_trials::random::Random;
use lemtskavo_trials::tally::Tally;
use lemtskavo_trials::twin::Twin;
use lemtskavo_trials::words::{self, STEP, data_of, palette};

use crate::cases::{Seen, note_far_task, note_req_02, note_req_04};

/// Ranks with more lines are not patrolled whole, since the model takes its time.
const PATROLLED_WHOLE: u32 = 4_097;

pub(crate) struct List {
    random: Random,
    twin: Twin,
    /// Words that data and catch-words are both taken from, so that they often meet.
    palette: [u64; 10],
    arguments: Arguments,
    bad_rows: BadRows,
    seen: Seen,
}

impl List {
    pub(crate) fn new(mut random: Random, lines: usize, tally: &mut Tally) -> List {
        let palette = palette(&mut random);
        let catch_words: [u64; 9] = match random.below(4) {
            0 => random.words(),
            1 => [random.pick(&palette); 9],
            _ => std::array::from_fn(|_| random.pick(&palette)),
        };
        let mut twin = Twin::new(lines, catch_words, tally);
        twin.library.record.repairs = totals(&mut random);
        let mut arguments = Arguments::new(lines, 12);
        // In some lists few tasks, so that their totals come to the end.
        if random.chance(40) {
            arguments.tasks = (0..1 + random.below(3)).map(|_| random.number(8)).collect();
        }
        let mut seen = Seen::new(lines);
        if lines <= 8 && random.chance(5) {
            // Any memory at all, not only what calls leave.
            twin.set_memory(random.bytes(81 * lines));
            seen.written.clear();
        }
        List { random, twin, palette, arguments, bad_rows: BadRows::new(2), seen }
    }

    /// Data words that often equal the chip's catch-word or its complement, chip 8's among them.
    fn data(&mut self) -> Vec<u8> {
        let length = self.arguments.length(64, &mut self.random);
        if length != 64 || self.random.chance(10) {
            return self.random.bytes(length);
        }
        let catch_words = self.twin.record().catch_words;
        let mut words: [u64; 8] = std::array::from_fn(|chip| match self.random.below(8) {
            0 => catch_words[chip],
            1 => !catch_words[chip],
            2..=5 => self.random.pick(&self.palette),
            _ => self.random.word(),
        });
        if self.random.chance(40) {
            let parity = if self.random.chance(70) { catch_words[8] } else { !catch_words[8] };
            words[7] = parity ^ words::xor(&words[..7]);
        }
        data_of(&words)
    }

    /// A catch-word of any value: often one that a line holds, its complement, or one that reaches it by steps.
    fn catch_word(&mut self, chip: u32) -> u64 {
        let line = self.random.number(self.arguments.lines);
        let held = self.twin.word(line, chip.min(8) as usize);
        match self.random.below(8) {
            0..=2 => held,
            3 => !held,
            4 => held.wrapping_sub(STEP),
            5 => self.random.pick(&self.palette),
            _ => self.random.word(),
        }
    }

    /// Damage of all kinds, codewords among it. Some of it leads the chip to a word that matters.
    fn pattern(&mut self, line: u32, chip: u32) -> Vec<u8> {
        let length = self.arguments.length(9, &mut self.random);
        if length != 9 {
            return self.random.bytes(length);
        }
        let pattern = match self.random.below(17) {
            0 => [0; 9],
            1..=6 => random_bits(&mut self.random, 1),
            7 | 8 => random_bits(&mut self.random, 2),
            9 => {
                let bits = 3 + self.random.below(6);
                random_bits(&mut self.random, bits)
            }
            10 => self.random.array(),
            11 => [0xFF; 9],
            12 => code::codeword(if self.random.chance(50) { self.random.pick(&self.palette) } else { 1 << self.random.below(64) }),
            13 | 14 => random_check(&mut self.random),
            _ => self.lead(line, chip),
        };
        pattern.to_vec()
    }

    /// The pattern that makes the chip hold its catch-word or the complement, with the right check byte or another.
    fn lead(&mut self, line: u32, chip: u32) -> code::Cell {
        let (line, chip) = (line.min(self.arguments.lines - 1), chip.min(8) as usize);
        let catch_word = self.twin.record().catch_words[chip];
        let target = if self.random.chance(60) { catch_word } else { !catch_word };
        random_leading(device::held(&self.twin.model, line, chip), target, &mut self.random)
    }

    fn fault(&mut self) -> Call {
        let (line, chip) = (self.arguments.line(&mut self.random), self.arguments.chip(&mut self.random));
        Call::Fault { line, chip, pattern: self.pattern(line, chip) }
    }

    fn patrol(&mut self) -> Call {
        let mut call = self.arguments.patrol(&mut self.random);
        if let Call::Patrol { budget, .. } = &mut call
            && self.arguments.lines > PATROLLED_WHOLE
        {
            *budget = (*budget).min(9);
        }
        call
    }

    fn write(&mut self) -> Call {
        Call::Write { line: self.arguments.line(&mut self.random), data: self.data() }
    }

    fn renew(&mut self) -> Call {
        let chip = self.arguments.chip(&mut self.random);
        Call::Renew { chip, catch_word: self.catch_word(chip) }
    }

    fn next(&mut self) -> Call {
        if let Some(call) = self.bad_rows.next(&self.arguments, &mut self.random) {
            return call;
        }
        match self.random.below(100) {
            0..=37 => self.fault(),
            38..=67 => self.arguments.read(&mut self.random),
            68..=79 => self.patrol(),
            80..=91 => self.write(),
            _ => self.renew(),
        }
    }

    /// One call of the list, or one on a broken state that is then dropped.
    pub(crate) fn step(&mut self, tally: &mut Tally) {
        let call = self.next();
        let before = self.twin.record();
        // Calls of a bad row are all made, or it would not be one.
        if !self.bad_rows.is_under_way() && self.random.chance(18) {
            let mut broken = self.twin.clone();
            break_state(&mut broken, &mut self.random);
            let refusal = broken.call(&call, tally).refusal;
            note_far_task(&call, before.lines, refusal, tally);
            return;
        }
        let [document_01, req_02] = [Step5::Document01, Step5::Req02].map(|by| self.twin.read_by(by, &call));
        let outcome = self.twin.call(&call, tally);
        note_far_task(&call, before.lines, outcome.refusal, tally);
        if let (Some((document_01, _)), Some(req_02)) = (document_01, req_02) {
            note_req_02(document_01.refusal, req_02.0.refusal, tally);
            note_req_04(&req_02, &outcome, &self.twin.model, tally);
        }
        self.seen.note(&call, &before, &outcome, tally);
    }
}

/// In some lists one total or several near the end.
fn totals(random: &mut Random) -> [u32; 8] {
    if random.chance(75) {
        return [0; 8];
    }
    std::array::from_fn(|_| if random.chance(40) { u32::MAX - random.number(12) } else { 0 })
}

/// Breaks the record or the memory's length in one to three ways.
fn break_state(twin: &mut Twin, random: &mut Random) {
    let length = twin.model.len();
    for _ in 0..1 + random.below(3) {
        let record = &mut twin.library.record;
        match random.below(12) {
            0 | 1 => record.enable = false,
            2 => record.lines = random.pick(&[0, 65_537, u32::MAX]),
            3 => record.lines = random.pick(&[1, 2, 65_535, 65_536, 0x8000_0001]),
            4 => twin.set_length(length - 1),
            5 => twin.set_length(length + 1),
            6 => twin.set_length(random.pick(&[0, length - 81, length + 81])),
            7 => record.catch_words[random.below(9)] ^= 1 << random.below(64),
            8 => record.registers = record.catch_words.map(|catch_word| !catch_word),
            _ => record.registers[random.below(9)] ^= 1 << random.below(64),
        }
    }
}
