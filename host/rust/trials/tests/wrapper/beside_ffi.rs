//! Random calls through the wrapper beside the C calls themselves: it passes on what it is given, and what comes back.
use lemtskavo::{Patrol, Rank, Refusal, RefusedRead, Visit, memory_bytes};
use lemtskavo_trials::arguments::Arguments;
use lemtskavo_trials::booted::Booted;
use lemtskavo_trials::call::{Call, Kind, Outcome};
use lemtskavo_trials::model::code::{self, Cell};
use lemtskavo_trials::patterns::random_bits;
use lemtskavo_trials::random::Random;
use lemtskavo_trials::tally::Tally;

/// Any call whose lengths are right, with wrong numbers at times. Catch-word 0 meets cleared lines.
fn any(arguments: &Arguments, random: &mut Random) -> Call {
    match random.below(9) {
        0 => Call::Write { line: arguments.line(random), data: random.bytes(64) },
        1..=3 => Call::Read { task: arguments.task(random), line: arguments.line(random), buffer: vec![0; 64] },
        4 => arguments.patrol(random),
        5 => Call::Renew { chip: arguments.chip(random), catch_word: if random.chance(50) { 0 } else { random.word() } },
        _ => Call::Fault { line: arguments.line(random), chip: arguments.chip(random), pattern: pattern(random).to_vec() },
    }
}

/// One bit to three, or a codeword.
fn pattern(random: &mut Random) -> Cell {
    match random.below(5) {
        0 => code::codeword(random.word()),
        1 => random_bits(random, 3),
        2 => random_bits(random, 2),
        _ => random_bits(random, 1),
    }
}

fn counts(visit: Visit) -> [u32; 3] {
    [visit.passes, visit.flagged, visit.collisions]
}

/// Makes a call through the wrapper, and gives what the C call would give.
fn through_wrapper(call: &Call, rank: &mut Rank<'_>) -> Outcome {
    let number = |result: Result<(), Refusal>| result.map_or_else(Refusal::number, |()| 0);
    let (refusal, counts, buffer) = match call {
        Call::Write { line, data } => (number(rank.write(*line, data.as_slice().try_into().unwrap())), [0; 3], Vec::new()),
        Call::Read { task, line, buffer } => match rank.read(*task, *line) {
            Ok(read) => (0, counts(read.visit), read.data.to_vec()),
            Err(RefusedRead { refusal, visit }) => (refusal.number(), counts(visit), buffer.clone()),
        },
        Call::Patrol { task, first, budget } => match rank.patrol(*task, *first, *budget) {
            Ok(Patrol { visited, refused, rewritten }) => (0, [visited, refused, rewritten], Vec::new()),
            Err(refusal) => (refusal.number(), [0; 3], Vec::new()),
        },
        Call::Renew { chip, catch_word } => (number(rank.renew(*chip, *catch_word)), [0; 3], Vec::new()),
        Call::Fault { line, chip, pattern } => {
            (number(rank.fault(*line, *chip, pattern.as_slice().try_into().unwrap())), [0; 3], Vec::new())
        }
    };
    Outcome { refusal, counts, record: *rank.record(), buffer }
}

#[test]
fn the_wrapper_gives_what_the_calls_give() {
    let mut tally = Tally::new("wrapper and calls");
    tally.lists(0..500, |mut random, tally| {
        let lines = 1 + random.below(4);
        let arguments = Arguments::new(lines, 6);
        let catch_words = random.words();
        let mut booted = Booted::new(lines, catch_words, tally);
        let mut memory = vec![0xFF; memory_bytes(lines)];
        let mut rank = Rank::boot(&mut memory, catch_words).unwrap();
        assert_eq!(*rank.record(), booted.record);
        for _ in 0..60 {
            let call = any(&arguments, &mut random);
            assert_eq!(through_wrapper(&call, &mut rank), booted.call(&call, tally), "{call:?}");
            assert!(rank.memory() == booted.memory.inside(), "{call:?}: the memories differ");
        }
    });
    tally.print();
    tally.demand_possible(&Kind::ALL[1..], &[2, 4, 12, 13, 14], 20);
}
