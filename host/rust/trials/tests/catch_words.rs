//! Catch-words don't matter (document 02, Req 05), observed on the static library alone: one list runs from two records that differ in their
//! catch-words, and those of the one run meet the data. There is no premise: damage is of any kind. The plain memory only tells which visits
//! are under the premise.
use lemtskavo::ffi::Record;
use lemtskavo_trials::arguments::Arguments;
use lemtskavo_trials::bad_row::BadRows;
use lemtskavo_trials::booted::Booted;
use lemtskavo_trials::call::{Call, Kind, Outcome};
use lemtskavo_trials::guarded::lend;
use lemtskavo_trials::model::code;
use lemtskavo_trials::model::device;
use lemtskavo_trials::model::plain::Plain;
use lemtskavo_trials::patterns::{self, random_damage, random_leading};
use lemtskavo_trials::random::Random;
use lemtskavo_trials::tally::{STEP_5, Tally};
use lemtskavo_trials::words::{STEP, data_of, xor};

/// How the catch-words of the one run are chosen beside the data.
const CHOICES: [&str; 5] = [
    "one run alone collides: catch-words are serial numbers in a row",
    "one run alone collides: catch-words are all equal",
    "one run alone collides: catch-words are all zero",
    "one run alone collides: catch-words are equal to the data",
    "one run alone collides: catch-words are complements of the data",
];

/// Eight words for data, and nine catch-words for the one run by a choice.
fn chosen(choice: usize, random: &mut Random) -> ([u64; 8], [u64; 9]) {
    let (word, words) = (random.word(), random.words());
    let with_parity: [u64; 9] = std::array::from_fn(|chip| words.get(chip).copied().unwrap_or(xor(&words)));
    match choice {
        0 => (std::array::from_fn(|chip| word.wrapping_add(chip as u64)), std::array::from_fn(|chip| word.wrapping_add(chip as u64))),
        1 => ([word; 8], [word; 9]),
        2 => ([0; 8], [0; 9]),
        3 => (words, with_parity),
        _ => (words, with_parity.map(|word| !word)),
    }
}

/// One list on two records and on equal memories.
#[derive(Clone)]
struct Pair {
    one: Booted,
    other: Booted,
}

impl Pair {
    /// Makes a call in both runs and compares all but passes, collisions and catch-words.
    fn call(&mut self, call: &Call, tally: &mut Tally) -> [Outcome; 2] {
        let both = [self.one.call(call, tally), self.other.call(call, tally)];
        tally.case("call in both runs");
        assert_eq!(shared(call, &both[0]), shared(call, &both[1]), "{call:?}\nwith {:?}\nand {:?}", both[0].record, both[1].record);
        assert!(self.one.memory.inside() == self.other.memory.inside(), "{call:?}: the memories differ");
        for outcome in &both {
            assert_eq!(outcome.record.registers, outcome.record.catch_words, "{call:?}");
        }
        both
    }

    /// Breaks both in the same way: Enable, N or the memory's length.
    fn broken(&self, random: &mut Random) -> Pair {
        let mut pair = self.clone();
        let mut bytes = pair.one.memory.inside().to_vec();
        let choice = random.below(4);
        let lines = random.pick(&[0, 1, 2, 65_536, 65_537, u32::MAX]);
        let length = random.pick(&[0, bytes.len() - 1, bytes.len() + 1, bytes.len() + 81]);
        bytes.resize(length, 0x3C);
        for run in [&mut pair.one, &mut pair.other] {
            match choice {
                0 => run.record.enable = false,
                1 => run.record.lines = lines,
                _ => run.memory = lend(&bytes),
            }
        }
        pair
    }
}

/// What must be the same: of a read's counts the flagged mask, of the record all but catch-words and registers.
fn shared(call: &Call, outcome: &Outcome) -> Outcome {
    let mut shared = outcome.clone();
    if call.kind() == Kind::Read {
        shared.counts = [0, outcome.counts[1], 0];
    }
    shared.record = Record { catch_words: [0; 9], registers: [0; 9], ..shared.record };
    shared
}

struct List {
    choice: usize,
    /// What the catch-words of the one run were chosen beside.
    words: [u64; 8],
    pair: Pair,
    /// Each line as it was last written; patterns are what the memory differs by.
    plain: Plain,
    arguments: Arguments,
    bad_rows: BadRows,
    random: Random,
}

impl List {
    fn new(mut random: Random, tally: &mut Tally) -> List {
        let choice = random.below(CHOICES.len());
        let (words, catch_words) = chosen(choice, &mut random);
        let lines = random.pick(&[1, 2, 3, 4, 8, 12, 130]);
        let pair = Pair { one: Booted::new(lines, catch_words, tally), other: Booted::new(lines, random.words(), tally) };
        let (arguments, bad_rows) = (Arguments::new(lines, 6), BadRows::new(3));
        let mut list = List { choice, words, pair, plain: Plain::boot(lines), arguments, bad_rows, random };
        if list.random.chance(10) {
            list.any_memory();
        }
        list
    }

    /// Any bytes at all, and any totals, the same in both runs.
    fn any_memory(&mut self) {
        let bytes = self.random.bytes(81 * self.plain.lines.len());
        let repairs = std::array::from_fn(|_| u32::MAX - self.random.number(12));
        for run in [&mut self.pair.one, &mut self.pair.other] {
            run.memory = lend(&bytes);
            run.record.repairs = repairs;
        }
        for line in 0..self.plain.lines.len() {
            self.look(line);
        }
    }

    /// The words that the catch-words were chosen beside, moved as these may be by now, or the catch-words of now; the parity too.
    fn data(&mut self) -> Vec<u8> {
        let length = self.arguments.length(64, &mut self.random);
        if length != 64 {
            return self.random.bytes(length);
        }
        let catch_words = self.pair.one.record.catch_words;
        let moves = STEP.wrapping_mul(self.random.below(3) as u64);
        let mut words: [u64; 8] = std::array::from_fn(|chip| match self.random.below(10) {
            0..=4 => self.words[chip].wrapping_add(moves),
            5..=6 => catch_words[chip],
            7 => !catch_words[chip],
            _ => self.random.word(),
        });
        if self.random.chance(40) {
            words[7] = catch_words[8] ^ xor(&words[..7]);
        }
        data_of(&words)
    }

    fn pattern(&mut self, line: u32, chip: u32) -> Vec<u8> {
        let length = self.arguments.length(9, &mut self.random);
        if length != 9 {
            return self.random.bytes(length);
        }
        if line >= self.arguments.lines || chip > 8 || !self.random.chance(20) {
            return random_damage(&mut self.random).to_vec();
        }
        // The chip is led to the catch-word of the one run, or to its complement.
        let catch_word = self.pair.one.record.catch_words[chip as usize];
        let word = if self.random.chance(70) { catch_word } else { !catch_word };
        let held = device::held(self.pair.one.memory.inside(), line, chip as usize);
        random_leading(held, word, &mut self.random).to_vec()
    }

    fn fault(&mut self) -> Call {
        let (line, chip) = (self.arguments.line(&mut self.random), self.arguments.chip(&mut self.random));
        Call::Fault { line, chip, pattern: self.pattern(line, chip) }
    }

    fn next(&mut self) -> Call {
        if let Some(call) = self.bad_rows.next(&self.arguments, &mut self.random) {
            return call;
        }
        match self.random.below(100) {
            0..=37 => self.fault(),
            38..=67 => self.arguments.read(&mut self.random),
            68..=76 => self.arguments.patrol(&mut self.random),
            77..=95 => Call::Write { line: self.arguments.line(&mut self.random), data: self.data() },
            _ => Call::Renew { chip: self.arguments.chip(&mut self.random), catch_word: self.random.pick(&self.words) },
        }
    }

    /// What a line differs by from how its last write laid it.
    fn look(&mut self, line: usize) {
        let memory = self.pair.one.memory.inside();
        let kept = &mut self.plain.lines[line];
        let mut words: Vec<u64> = kept.bytes.chunks(8).map(|bytes| u64::from_be_bytes(bytes.try_into().unwrap())).collect();
        words.push(xor(&words));
        for (chip, word) in words.into_iter().enumerate() {
            kept.patterns[chip] = patterns::xor(device::held(memory, line as u32, chip), code::codeword(word));
        }
    }

    /// Keeps the plain memory as the memory now is. A call that was refused changes neither.
    fn follow(&mut self, call: &Call) {
        match call {
            Call::Write { line, data } => _ = self.plain.write(*line, data),
            Call::Fault { line, chip, pattern } => _ = self.plain.fault(*line, *chip, pattern),
            Call::Read { line, .. } if *line < self.arguments.lines => self.look(*line as usize),
            Call::Patrol { task, first, budget } => {
                for line in self.plain.patrolled(*task, *first, *budget).unwrap_or(0..0) {
                    self.look(line);
                }
            }
            Call::Read { .. } | Call::Renew { .. } => (),
        }
    }

    /// One call of the list, or one on a broken state that is then dropped.
    fn step(&mut self, tally: &mut Tally) {
        let call = self.next();
        // Calls of a bad row are all made, or it would not be one.
        if !self.bad_rows.is_under_way() && self.random.chance(6) {
            self.pair.broken(&mut self.random).call(&call, tally);
            return;
        }
        let under_premise = match &call {
            Call::Read { line, .. } if *line < self.arguments.lines => self.plain.premise(*line as usize),
            _ => false,
        };
        let before = [self.pair.one.record, self.pair.other.record];
        let both = self.pair.call(&call, tally);
        self.note(&call, under_premise, before, &both, tally);
        self.follow(&call);
    }

    fn note(&self, call: &Call, under_premise: bool, before: [Record; 2], both: &[Outcome; 2], tally: &mut Tally) {
        let moved = [0, 1].map(|run| both[run].record.catch_words != before[run].catch_words);
        if call.kind() == Kind::Patrol && moved[0] && !moved[1] {
            tally.case("patrol that moves catch-words in one run alone");
        }
        let [one, other] = both;
        if call.kind() != Kind::Read || one.counts[2] == 0 || other.counts[2] != 0 {
            return;
        }
        tally.case(CHOICES[self.choice]);
        tally.case(match (one.refusal, under_premise) {
            (0, true) => "one run alone collides: answered under the premise",
            (0, false) => "one run alone collides: answered outside the premise",
            (20, _) => "one run alone collides: refused 20",
            (_, true) => "one run alone collides: refused 21 under the premise",
            (_, false) => "one run alone collides: refused 21 outside the premise",
        });
        if one.counts[0] != other.counts[0] {
            tally.case("one run alone collides: other passes");
        }
        if one.counts[0] > 3 {
            tally.case("one run alone collides: the row is diagnosed");
        }
        if one.counts[1].count_ones() == 1 {
            tally.case("one run alone collides: one chip flagged");
        }
    }
}

#[test]
fn catch_words_change_no_refusal_line_count_or_byte() {
    let mut tally = Tally::new("two runs with other catch-words");
    tally.lists(0..3_000, |random, tally| {
        let mut list = List::new(random, tally);
        for _ in 0..60 {
            list.step(tally);
        }
    });
    tally.print();
    tally.demand(&["call in both runs"], 100_000);
    tally.demand(&CHOICES, 500);
    let cases = [
        "patrol that moves catch-words in one run alone",
        "one run alone collides: answered under the premise",
        "one run alone collides: answered outside the premise",
        "one run alone collides: refused 20",
        "one run alone collides: refused 21 under the premise",
        "one run alone collides: refused 21 outside the premise",
        "one run alone collides: other passes",
        "one run alone collides: the row is diagnosed",
        "one run alone collides: one chip flagged",
    ];
    tally.demand(&cases, 100);
    tally.demand(&STEP_5, 500);
    tally.demand_possible(&Kind::ALL[1..], &[14], 100);
    // 14 comes in neither run, since the copies of both records stay equal.
    for kind in Kind::ALL {
        assert_eq!(tally.refused(kind, 14), 0, "{kind:?}");
    }
}
