//! Random calls, refused ones and damage that can't be undone included: both sides must give the same results and bytes.
use std::collections::{BTreeMap, BTreeSet};

use lemtskavo::ffi::{RankCalled, Record};
use lemtskavo::{LINE_LIMIT, memory_bytes};
use lemtskavo_trials::arguments::other_chip;
use lemtskavo_trials::bad_row::{enough, other_lines};
use lemtskavo_trials::model::code::Status;
use lemtskavo_trials::model::device;
use lemtskavo_trials::patterns::{random_bits, random_with};
use lemtskavo_trials::random::Random;

use crate::patterns::{beyond_mending, codeword, not_codeword};
use crate::sides::{Fast, Library, Side};

pub(crate) fn agree(calls: u32) {
    let mut random = Random::new(0x9e37_79b9_7f4a_7c15);
    let mut seen = BTreeSet::new();
    let mut step_5 = BTreeMap::new();
    for lines in [0, 1, 3, 5, 130, LINE_LIMIT as usize, LINE_LIMIT as usize + 1] {
        let mut pair = Pair::new(lines, &mut random);
        // Memories are compared after each call, so a large one gets few; without a rank every call is refused with 12.
        for _ in 0..if (1..=130).contains(&lines) { calls / 4 } else { 200 } {
            pair.call(&mut random);
        }
        seen.append(&mut pair.seen);
        for (case, reads) in pair.step_5 {
            *step_5.entry(case).or_insert(0) += reads;
        }
    }
    assert!(seen.iter().eq(&[0, 1, 2, 3, 4, 5, 11, 12, 13, 14, 20, 21, 31]), "only refusals {seen:?} came up");
    // None, one, and two or more chips beyond mending; with none the row is diagnosed, if it has another line and the words don't xor to
    // zero: these are all the cases that there are.
    let cases = [(0, 0, false), (0, 0, true), (0, 21, false), (0, 21, true), (1, 0, false), (2, 21, false)];
    assert!(step_5.keys().eq(&cases) && step_5.values().all(|reads| *reads >= 100), "reads that came to step 5 were {step_5:?}");
    println!("Library and safe Rust agree on {calls} random calls, with every refusal and every case of step 5 among them.");
}

/// One record, and a memory for each side.
struct Pair {
    rank: Record,
    library: Vec<u8>,
    fast: Vec<u8>,
    seen: BTreeSet<u32>,
    /// Reads that came to step 5 by the chips beyond mending, 2 for two or more, the refusal, and whether the row was diagnosed.
    step_5: BTreeMap<(usize, u32, bool), u32>,
}

/// One in sixteen is not so long: a byte more or less.
fn length(right: usize, random: &mut Random) -> usize {
    if random.below(16) == 0 { right - 1 + 2 * random.below(2) } else { right }
}

/// Often a word that lines hold too, so that it collides as a catch-word.
fn catch_word(random: &mut Random) -> u64 {
    let any = random.word();
    random.pick(&[0, 0x0101_0101_0101_0101, any])
}

impl Pair {
    fn new(lines: usize, random: &mut Random) -> Pair {
        let memory = vec![0xa5; memory_bytes(lines)];
        let rank = Library::boot(&mut [], &[]).rank;
        let mut pair = Pair { rank, library: memory.clone(), fast: memory, seen: BTreeSet::new(), step_5: BTreeMap::new() };
        pair.boot(random);
        while pair.rank.lines == 0 && (1..=LINE_LIMIT as usize).contains(&lines) {
            pair.boot(random);
        }
        pair
    }

    fn call(&mut self, random: &mut Random) {
        let line = random.number(self.rank.lines + 1);
        let task = if random.below(16) == 0 { random.pick(&[8, 256, 1 << 31, u32::MAX]) } else { random.number(8) };
        let rank = self.maybe_broken(random);
        match random.below(16) {
            0 if random.below(8) == 0 => self.boot(random),
            0 | 1 => self.renew(rank, random),
            2..=4 => self.write(rank, line, random),
            5 if random.below(4) == 0 => self.bad_row(line, random),
            5..=9 => self.fault(rank, line, random),
            10..=13 => self.read(rank, task, line, random),
            _ => self.patrol(rank, task, line, random),
        }
    }

    fn renew(&mut self, rank: Record, random: &mut Random) {
        let chip = if random.chance(50) { 9 } else { random.number(9) };
        let word = catch_word(random);
        self.keep_called(rank, Library::renew(rank, chip, word), Fast::renew(rank, chip, word));
    }

    fn write(&mut self, rank: Record, line: u32, random: &mut Random) {
        let length = length(64, random);
        let mut data = random.bytes(length);
        if random.chance(50) {
            data.fill(random.byte() & 1);
        }
        let a = Library::write(rank, &mut self.library, line, &data);
        let b = Fast::write(rank, &mut self.fast, line, &data);
        self.keep_called(rank, a, b);
    }

    fn fault(&mut self, rank: Record, line: u32, random: &mut Random) {
        let limit = if random.below(16) == 0 { 11 } else { 9 };
        let chip = random.number(limit);
        let pattern = match random.below(8) {
            0 => random.array(),
            1 => codeword(random),
            2 => not_codeword(random),
            3 => beyond_mending(random),
            _ => random_bits(random, 1),
        };
        let mut pattern = pattern.to_vec();
        pattern.resize(length(9, random), 0);
        self.fault_by(rank, line, chip, &pattern);
    }

    fn fault_by(&mut self, rank: Record, line: u32, chip: u32, pattern: &[u8]) {
        let a = Library::fault(rank, &mut self.library, line, chip, pattern);
        let b = Fast::fault(rank, &mut self.fast, line, chip, pattern);
        self.keep_called(rank, a, b);
    }

    /// Damages one chip in some lines of a row, about as many as are enough to blame it, and reads one that its own bytes leave undecided.
    fn bad_row(&mut self, wanted: u32, random: &mut Random) {
        let (rank, chip) = (self.rank, random.number(9));
        let others = other_lines(wanted, rank.lines);
        for line in &others {
            if random.below(others.len()) <= enough(others.len()) {
                self.fault_by(rank, *line, chip, &not_codeword(random));
            }
        }
        self.fault_by(rank, wanted, chip, &random_with(Status::Mended, random));
        self.fault_by(rank, wanted, other_chip(chip, random), &random_bits(random, 1));
        self.read(rank, 0, wanted, random);
    }

    fn read(&mut self, rank: Record, task: u32, line: u32, random: &mut Random) {
        let length = length(64, random);
        let (mut p, mut q) = (vec![0x5a; length], vec![0x5a; length]);
        let beyond = self.beyond_mending(line);
        let a = Library::read(rank, &mut self.library, task, line, &mut p);
        let b = Fast::read(rank, &mut self.fast, task, line, &mut q);
        self.keep(rank, a == b && p == q, a.refusal, a.rank);
        if a.passes >= 3 {
            *self.step_5.entry((beyond.min(2), a.refusal, a.passes > 3)).or_insert(0) += 1;
        }
    }

    fn patrol(&mut self, rank: Record, task: u32, first: u32, random: &mut Random) {
        let budget = if random.chance(50) { u32::MAX } else { random.number(4) };
        let a = Library::patrol(rank, &mut self.library, task, first, budget);
        let b = Fast::patrol(rank, &mut self.fast, task, first, budget);
        self.keep(rank, a == b, a.refusal, a.rank);
    }

    fn boot(&mut self, random: &mut Random) {
        let count = if random.below(4) == 0 { 8 + 2 * random.below(2) } else { 9 };
        let catch_words: Vec<u64> = (0..count).map(|_| catch_word(random)).collect();
        let cut = usize::from(random.below(8) == 0).min(self.fast.len());
        let end = self.fast.len() - cut;
        let a = Library::boot(&mut self.library[..end], &catch_words);
        let b = Fast::boot(&mut self.fast[..end], &catch_words);
        // A refused boot gives a record of zeros and leaves the rank that was there.
        let rank = if a.refusal == 0 { a.rank } else { self.rank };
        self.keep(self.rank, a == b, a.refusal, rank);
    }

    /// How many chips of a line are beyond mending, none if there is no such line.
    fn beyond_mending(&self, line: u32) -> usize {
        if line as usize >= self.fast.len() / 81 {
            return 0;
        }
        device::statuses(&self.fast, line).into_iter().filter(|status| *status == Status::Beyond).count()
    }

    /// The record, sometimes with a field that the calls must refuse.
    fn maybe_broken(&self, random: &mut Random) -> Record {
        let mut rank = self.rank;
        match random.below(64) {
            0 => rank.enable = false,
            1 => rank.lines = random.pick(&[0, 2, 65_537, u32::MAX]),
            2 => rank.registers[random.below(9)] ^= 1,
            3 => rank.repairs[random.below(8)] = u32::MAX - 1,
            _ => {}
        }
        rank
    }

    fn keep_called(&mut self, given: Record, a: RankCalled, b: RankCalled) {
        self.keep(given, a == b, a.refusal, a.rank);
    }

    /// Stops the run if the two differ. A record that was broken on purpose is not kept, but for a high repair total.
    fn keep(&mut self, given: Record, same: bool, refusal: u32, returned: Record) {
        if !same || self.library != self.fast {
            eprintln!("Library and safe Rust differ after a call with {given:?}");
            std::process::exit(1);
        }
        self.seen.insert(refusal);
        let broken = Record { repairs: self.rank.repairs, ..given } != self.rank;
        if !broken {
            self.rank = returned;
        }
    }
}
