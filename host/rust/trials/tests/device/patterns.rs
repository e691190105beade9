//! The code inside a chip: the examples of document 01, every pattern of few bits, and every pair of syndromes.
use lemtskavo_trials::arguments::other_chip;
use lemtskavo_trials::call::Kind;
use lemtskavo_trials::model::code::{self, Status};
use lemtskavo_trials::patterns::{cell_of, one_bit};
use lemtskavo_trials::random::Random;
use lemtskavo_trials::tally::{STEP_5, Tally};
use lemtskavo_trials::twin::{Twin, UNREAD};
use lemtskavo_trials::words::data_of;

/// The examples of document 01 for the code, on the model, and on the library through write and read.
#[test]
fn the_code_has_the_examples_of_document_01() {
    let examples: [(u64, u8); 8] = [
        (0, 0x00),
        (1, 0x07),
        (0x80, 0x89),
        (0xFF, 0xF3),
        (0x100, 0x15),
        (0x0100_0000_0000_0000, 0x13),
        (0x8000_0000_0000_0000, 0xBF),
        (!0, 0xD7),
    ];
    let mut tally = Tally::new("examples of the code");
    let mut twin = Twin::new(1, [7; 9], &mut tally);
    for (word, check) in examples {
        assert_eq!(code::check(word), check);
        twin.write(0, &data_of(&[word, 0, 0, 0, 0, 0, 0, 0]), &mut tally);
        let memory = twin.library.memory.inside();
        assert_eq!(memory[..9], code::cell(word, check));
        assert_eq!(memory[72..81], code::cell(word, check));
    }
    assert_eq!(code::mended(&code::cell(0, 0x07)), 1);
    for check in [0x03, 0x79] {
        assert_eq!(code::mended(&code::cell(0, check)), 0);
        assert_eq!(code::position(check), code::NO_POSITION);
    }
    assert_eq!(code::position(0xBF), 71);
    // Mending a check bit leaves the word, so that a mended word does not show the positions below 8.
    for position in 0..72 {
        assert_eq!(usize::from(code::position(code::syndrome(&one_bit(position)))), position);
    }
    assert_eq!((0..=255).filter(|syndrome| code::position(*syndrome) != code::NO_POSITION).count(), 72);
    // A check byte over word 0 is its own syndrome.
    let count = |status| (0..=255).filter(|check| code::status(&code::cell(0, *check)) == status).count();
    assert_eq!([Status::Sound, Status::Mended, Status::Beyond].map(count), [1, 72, 183]);
    tally.print();
}

/// A rank of one line of random bytes, and those bytes.
fn one_line(random: &mut Random, tally: &mut Tally) -> (Twin, Vec<u8>) {
    let mut twin = Twin::new(1, random.words(), tally);
    let data = random.bytes(64);
    twin.write(0, &data, tally);
    (twin, data)
}

/// Two chips that are not the same.
fn two_chips(random: &mut Random) -> (u32, u32) {
    let chip = random.number(9);
    (chip, other_chip(chip, random))
}

/// Beside one bit in another chip, each one-bit pattern is mended, and each two-bit pattern is beyond mending and rebuilt.
#[test]
fn every_pattern_of_one_and_two_bits() {
    let mut tally = Tally::new("one and two bits");
    let (mut twin, data) = one_line(&mut tally.random(), &mut tally);
    for chip in 0..9 {
        for position in 0..72 {
            twin.fault(0, chip, &one_bit(position), &mut tally);
            twin.fault(0, (chip + 1) % 9, &one_bit(71 - position), &mut tally);
            let read = twin.read(0, &mut tally);
            assert_eq!((read.refusal, read.counts), (0, [3, 1 << chip | 1 << ((chip + 1) % 9), 0]));
            assert_eq!(read.buffer, data);
        }
    }
    for low in 0..71 {
        for high in low + 1..72 {
            let chip = (low * 7 + high) as u32 % 9;
            for pattern in [one_bit(low), one_bit(high)] {
                twin.fault(0, chip, &pattern, &mut tally);
            }
            let alone = twin.clone().read(0, &mut tally);
            assert_eq!((alone.refusal, alone.counts), (0, [2, 1 << chip, 0]));
            assert_eq!(alone.buffer, data);
            let other = (chip + 4) % 9;
            twin.fault(0, other, &one_bit(low), &mut tally);
            let read = twin.read(0, &mut tally);
            assert_eq!((read.refusal, read.counts), (0, [3, 1 << chip | 1 << other, 0]));
            assert_eq!(read.buffer, data);
        }
    }
    assert!(twin.clone().read(0, &mut tally).counts == [1, 0, 0] && tally.refused(Kind::Read, 21) == 0);
    tally.print();
}

/// Every pattern of three bits.
fn three_bits() -> impl Iterator<Item = code::Cell> {
    let places = (0..70).flat_map(|low| (low + 1..71).flat_map(move |middle| (middle + 1..72).map(move |high| [low, middle, high])));
    places.map(|[low, middle, high]| cell_of(1 << low | 1 << middle | 1 << high))
}

/// Beside one bit in another chip, a three-bit pattern is beyond mending and rebuilt, or its chip inverts another bit and the line is lost.
#[test]
fn every_pattern_of_three_bits() {
    let mut tally = Tally::new("three bits");
    let mut random = tally.random();
    let (mut twin, data) = one_line(&mut random, &mut tally);
    for pattern in three_bits() {
        let (chip, other) = two_chips(&mut random);
        twin.fault(0, chip, &pattern, &mut tally);
        twin.fault(0, other, &one_bit(random.below(72)), &mut tally);
        let read = twin.read(0, &mut tally);
        assert_eq!(read.counts, [3, 1 << chip | 1 << other, 0]);
        if code::status(&pattern) == Status::Beyond {
            assert_eq!((read.refusal, &read.buffer), (0, &data));
        } else {
            assert_eq!((read.refusal, &read.buffer[..]), (21, &UNREAD[..]));
            twin.write(0, &data, &mut tally);
        }
    }
    assert_eq!(tally.refused(Kind::Read, 0) + tally.refused(Kind::Read, 21), 59_640);
    tally.demand_refusals(Kind::Read, &[0, 21], 10_000);
    tally.print();
}

/// Step 5 for two flagged chips with every pair of syndromes, most of them outside the premise. A pattern in the check byte alone is its
/// own syndrome.
#[test]
fn every_pair_of_syndromes() {
    let mut tally = Tally::new("pairs of syndromes");
    let mut random = tally.random();
    let mut twin = Twin::new(1, random.words(), &mut tally);
    for one in 1..=255u8 {
        let data = random.bytes(64);
        for other in 1..=255u8 {
            twin.write(0, &data, &mut tally);
            let (chip, next) = two_chips(&mut random);
            let damage = [code::cell(0, one), code::cell(0, other)];
            twin.fault(0, chip, &damage[0], &mut tally);
            twin.fault(0, next, &damage[1], &mut tally);
            let read = twin.read(0, &mut tally);
            let beyond = damage.iter().filter(|pattern| code::status(pattern) == Status::Beyond).count();
            let refused = beyond == 2 || beyond == 0 && code::mended(&damage[0]) != code::mended(&damage[1]);
            assert_eq!((read.refusal, read.counts), (if refused { 21 } else { 0 }, [3, 1 << chip | 1 << next, 0]));
        }
    }
    tally.print();
    // Eight of the 72 positions are in the check byte; two of the other 64 cancel only if they are the same.
    let reached = STEP_5.map(|case| tally.count(case));
    assert_eq!(reached, [8 * 8 + 64, 72 * 72 - 8 * 8 - 64, 2 * 72 * 183, 0, 183 * 183]);
}
