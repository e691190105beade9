//! Row diagnosis (document 02, Req 04): examples, each on the static library beside the device model, beside a read without Req 04 and,
//! under the premise, beside the plain memory.
use lemtskavo_trials::bad_row::{enough, other_lines};
use lemtskavo_trials::call::{Call, Outcome};
use lemtskavo_trials::model::code::{Cell, Status};
use lemtskavo_trials::model::device::Step5;
use lemtskavo_trials::model::plain::Plain;
use lemtskavo_trials::patterns::{CHECK_03, CHECK_07, WORD_300, one_bit, random_with};
use lemtskavo_trials::random::Random;
use lemtskavo_trials::tally::Tally;
use lemtskavo_trials::twin::{TASK, Twin, UNREAD};
use lemtskavo_trials::words::{STEP, data_of};

const ONE_BIT: Cell = [0, 0, 0x10, 0, 0, 0, 0, 0, 0];

/// The chip that is bad in a row, and another that has one bad bit in the wanted line.
const BAD: usize = 4;
const BESIDE: usize = 7;

/// A rank of random lines.
struct Rows {
    twin: Twin,
    plain: Plain,
    written: Vec<Vec<u8>>,
    random: Random,
    tally: Tally,
}

/// How a read has to end.
#[derive(Clone, Copy, Debug, PartialEq)]
enum End {
    Answered,
    Refused,
}

impl Rows {
    fn new(lines: u32) -> Rows {
        let mut tally = Tally::new("row diagnosis");
        let mut random = tally.random();
        let twin = Twin::new(lines as usize, random.words(), &mut tally);
        let mut rows = Rows { twin, plain: Plain::boot(lines as usize), written: vec![vec![0; 64]; lines as usize], random, tally };
        // In a wide rank the last lines alone.
        for line in lines.saturating_sub(300)..lines {
            let data = rows.random.bytes(64);
            rows.write(line, data);
        }
        rows
    }

    fn write(&mut self, line: u32, data: Vec<u8>) {
        self.twin.write(line, &data, &mut self.tally);
        self.plain.write(line, &data).unwrap();
        self.written[line as usize] = data;
    }

    fn damage(&mut self, line: u32, chip: usize, pattern: Cell) {
        self.twin.fault(line, chip as u32, &pattern, &mut self.tally);
        self.plain.fault(line, chip as u32, &pattern).unwrap();
    }

    /// Damages a chip in the first so many of these lines. Which pattern it is does not matter, if it is no codeword.
    fn hit(&mut self, chip: usize, lines: &[u32], count: usize) {
        for (place, line) in lines[..count].iter().enumerate() {
            let any = random_with([Status::Mended, Status::Beyond][place % 2], &mut self.random);
            self.damage(*line, chip, any);
        }
    }

    /// Damages the bad chip of a line by bits that its code takes for one, and the chip beside it by one bit.
    fn undecided(&mut self, line: u32) {
        self.damage(line, BAD, CHECK_07);
        self.damage(line, BESIDE, ONE_BIT);
    }

    fn others(&self, line: u32) -> Vec<u32> {
        other_lines(line, self.twin.record().lines)
    }

    /// Reads a line on the library and on the device model. A read without Req 04 has to be refused 21 after three passes.
    fn read(&mut self, line: u32) -> Outcome {
        let call = Call::Read { task: TASK, line, buffer: UNREAD.to_vec() };
        let (former, _) = self.twin.read_by(Step5::Req02, &call).unwrap();
        assert_eq!((former.refusal, former.counts[0]), (21, 3), "without Req 04");
        self.twin.call(&call, &mut self.tally)
    }

    /// Reads a line under the premise, on the plain memory too. It makes three passes, and two over each other line of its row, and ends
    /// so. An answer is the line written, and repairs it alone; a refusal changes nothing.
    fn check(&mut self, line: u32, end: End) {
        assert!(self.plain.premise(line as usize));
        let before = (self.twin.record(), self.twin.model.clone());
        let read = self.read(line);
        let passes = 3 + 2 * self.others(line).len() as u32;
        assert_eq!(read.counts, [passes, 1 << BAD | 1 << BESIDE, 0]);
        assert_eq!(read.record.catch_words, before.0.catch_words);
        match (end, self.plain.read(TASK, line, 64)) {
            (End::Answered, Ok(bytes)) => {
                assert_eq!((read.refusal, &read.buffer[..]), (0, &bytes[..]));
                assert_eq!(read.buffer, self.written[line as usize]);
                assert_eq!(read.record.repairs[TASK as usize], before.0.repairs[TASK as usize] + 2);
            }
            (End::Refused, Err(21)) => {
                assert_eq!((read.refusal, &read.buffer[..]), (21, &UNREAD[..]));
                assert!((read.record, &self.twin.model) == (before.0, &before.1), "a refusal changes nothing");
            }
            (end, plain) => panic!("line {line} has to be {end:?}, and the plain memory gives {plain:?}"),
        }
        assert!(self.twin.model == self.plain.memory(), "the lines are those of the plain memory with their damage");
    }

    /// A patrol on the library, on the device model and, under the premise, on the plain memory.
    fn patrol(&mut self, first: u32, budget: u32) -> [u32; 3] {
        let mut plain = self.plain.clone();
        for line in plain.patrolled(TASK, first, budget).unwrap() {
            assert!(plain.premise(line), "line {line}");
            _ = plain.visit(line);
        }
        let counts = self.twin.patrol(first, budget, &mut self.tally).counts;
        assert_eq!(self.plain.patrol(TASK, first, budget), Ok((counts[0], counts[1])));
        assert!(self.twin.model == self.plain.memory(), "the lines are those of the plain memory with their damage");
        counts
    }
}

/// A rank, a line that is read, and in how many of the other lines of its row chips are hit.
struct Example {
    name: &'static str,
    lines: u32,
    wanted: u32,
    hits: &'static [(usize, usize)],
    end: End,
}

/// Chip 4 has many bits in the wanted line and chip 7 one. Chip 2 is not flagged there.
const EXAMPLES: [Example; 17] = [
    Example { name: "127 other lines, none hit", lines: 128, wanted: 60, hits: &[], end: End::Refused },
    Example { name: "127 other lines, 12 hit", lines: 128, wanted: 60, hits: &[(BAD, 12)], end: End::Refused },
    Example { name: "127 other lines, 13 hit", lines: 128, wanted: 60, hits: &[(BAD, 13)], end: End::Answered },
    Example { name: "127 other lines, all hit", lines: 128, wanted: 60, hits: &[(BAD, 127)], end: End::Answered },
    Example { name: "another chip just below", lines: 128, wanted: 0, hits: &[(BAD, 13), (BESIDE, 12)], end: End::Answered },
    Example { name: "a tie of two flagged chips", lines: 128, wanted: 127, hits: &[(BAD, 13), (BESIDE, 13)], end: End::Refused },
    Example { name: "more hits don't break a tie", lines: 128, wanted: 127, hits: &[(BAD, 127), (BESIDE, 13)], end: End::Refused },
    Example { name: "a tie with a chip that is not flagged", lines: 128, wanted: 5, hits: &[(BAD, 13), (2, 13)], end: End::Refused },
    Example { name: "a chip that is not flagged just below", lines: 128, wanted: 5, hits: &[(BAD, 13), (2, 12)], end: End::Answered },
    Example { name: "only a chip that is not flagged reaches", lines: 128, wanted: 5, hits: &[(BAD, 12), (2, 127)], end: End::Refused },
    Example { name: "only chip 8 reaches, not flagged", lines: 128, wanted: 5, hits: &[(8, 13)], end: End::Refused },
    Example { name: "a row of one line after a full one", lines: 129, wanted: 128, hits: &[], end: End::Refused },
    Example { name: "a rank of one line", lines: 1, wanted: 0, hits: &[], end: End::Refused },
    Example { name: "a last row of two lines", lines: 130, wanted: 129, hits: &[(BAD, 1)], end: End::Answered },
    Example { name: "a last row of 12 lines, 1 hit", lines: 140, wanted: 128, hits: &[(BAD, 1)], end: End::Refused },
    Example { name: "a last row of 12 lines, 2 hit", lines: 140, wanted: 139, hits: &[(BAD, 2)], end: End::Answered },
    Example { name: "the last row of the widest rank", lines: 65_536, wanted: 65_535, hits: &[(BAD, 13)], end: End::Answered },
];

#[test]
fn a_chip_is_blamed_by_the_other_lines_of_the_row() {
    for Example { name, lines, wanted, hits, end } in EXAMPLES {
        println!("{name}");
        let mut rows = Rows::new(lines);
        let others = rows.others(wanted);
        for (chip, count) in hits {
            rows.hit(*chip, &others, *count);
        }
        rows.undecided(wanted);
        rows.check(wanted, end);
    }
}

/// Every length of a row, in a rank of one row and as the last of two: with one hit fewer the line is refused.
#[test]
fn every_length_of_a_row() {
    for length in 2..=128 {
        for before in [0, 128] {
            let mut rows = Rows::new(before + length);
            let wanted = before + rows.random.number(length);
            let others = rows.others(wanted);
            let enough = enough(others.len());
            rows.undecided(wanted);
            rows.hit(BAD, &others, enough - 1);
            rows.check(wanted, End::Refused);
            rows.hit(BAD, &others[enough - 1..], 1);
            rows.check(wanted, End::Answered);
        }
    }
}

#[test]
fn only_the_lines_of_the_same_row_are_counted() {
    for (bad, wanted) in [(0, 128), (0, 255), (128, 0), (128, 127), (128, 256)] {
        let mut rows = Rows::new(300);
        let row: Vec<u32> = (bad..bad + 128).collect();
        rows.hit(BAD, &row, 128);
        rows.undecided(wanted);
        rows.check(wanted, End::Refused);
    }
}

/// Any two chips, and any bits that the bad chip's code takes for one.
#[test]
fn every_two_chips() {
    let mut rows = Rows::new(12);
    for bad in 0..9 {
        for beside in (0..9).filter(|beside| *beside != bad) {
            let wanted = rows.random.number(12);
            let others = rows.others(wanted);
            rows.hit(bad, &others, 2);
            let many = random_with(Status::Mended, &mut rows.random);
            rows.damage(wanted, bad, many);
            rows.damage(wanted, beside, ONE_BIT);
            let read = rows.read(wanted);
            assert_eq!((read.refusal, read.counts), (0, [3 + 2 * 11, 1 << bad | 1 << beside, 0]));
            assert_eq!(read.buffer, rows.written[wanted as usize]);
            rows.plain.read(TASK, wanted, 64).unwrap();
            rows.patrol(0, 12);
        }
    }
}

/// All nine chips are flagged on the wanted line, eight of them with one bit.
#[test]
fn one_bit_in_each_of_the_eight_others() {
    let mut rows = Rows::new(128);
    let others = rows.others(77);
    rows.hit(BAD, &others, 13);
    for chip in 0..9 {
        rows.damage(77, chip, if chip == BAD { CHECK_07 } else { one_bit(8 * chip) });
    }
    let read = rows.read(77);
    assert_eq!((read.refusal, read.counts), (0, [257, 0x1FF, 0]));
    assert_eq!((&read.buffer, read.record.repairs[TASK as usize]), (&rows.written[77], 9));
}

/// A patrol that repairs line after line of a bad row takes away what the diagnoses of later lines count.
#[test]
fn a_patrol_over_a_bad_row() {
    let mut rows = Rows::new(140);
    for line in 0..128 {
        rows.damage(line, BAD, CHECK_07);
    }
    // Each of eight chips in twelve lines, so that none of them reaches.
    for line in 32..128 {
        let beside = (BAD + 1 + line as usize % 8) % 9;
        rows.damage(line, beside, ONE_BIT);
    }
    // Line 114 is the last to see 13 other lines hit. Those that are refused keep their damage, and each of the 13 sees the 12 others.
    assert_eq!(rows.patrol(0, 140), [140, 13, 32 + 2 * (115 - 32)]);
    assert_eq!(rows.patrol(0, 140), [140, 13, 0]);
    // One hit more, which the patrol does not meet before: one line is answered, and the others see 12 again.
    rows.damage(0, BAD, ONE_BIT);
    assert_eq!(rows.patrol(115, u32::MAX), [25, 12, 2]);
    assert_eq!(rows.patrol(0, 115), [115, 0, 1]);
    assert_eq!(rows.patrol(0, 128), [128, 12, 0]);
}

/// Words of other lines that equal catch-words are no flagged words, and their collisions renew nothing. Chip 2 would reach by them, and so
/// would the bad chip with one hit fewer.
#[test]
fn collisions_of_other_lines_count_and_renew_nothing() {
    for (hits, end) in [(12, End::Refused), (13, End::Answered)] {
        let mut rows = Rows::new(128);
        let (wanted, catch_words) = (64, rows.twin.record().catch_words);
        let others = rows.others(wanted);
        for line in &others {
            let mut words: [u64; 8] = rows.random.words();
            words[2] = catch_words[2];
            words[BAD] = catch_words[BAD];
            rows.write(*line, data_of(&words));
        }
        rows.hit(BAD, &others, hits);
        rows.undecided(wanted);
        rows.check(wanted, end);
        assert_eq!(rows.twin.record().catch_words, catch_words);
    }
}

/// A damaged chip is counted also where it holds its catch-word, or the complement, with another check byte.
#[test]
fn damaged_catch_words_count() {
    for (hits, end) in [(12, End::Refused), (13, End::Answered)] {
        let mut rows = Rows::new(128);
        let catch_word = rows.twin.record().catch_words[BAD];
        let others = rows.others(127);
        for line in &others[..hits] {
            let mut words: [u64; 8] = rows.random.words();
            words[BAD] = if line % 2 == 0 { catch_word } else { !catch_word };
            rows.write(*line, data_of(&words));
            rows.damage(*line, BAD, CHECK_03);
        }
        rows.undecided(127);
        rows.check(127, end);
    }
}

/// The wanted line's own collision moves its catch-word if the line is answered, and only then. Other lines meet the former one.
#[test]
fn the_wanted_lines_collision_moves_its_catch_word_once() {
    for (hits, moves) in [(12, 0), (13, 1)] {
        let mut rows = Rows::new(128);
        let catch_words = rows.twin.record().catch_words;
        for line in [0, 1, 126, 127] {
            let mut words: [u64; 8] = rows.random.words();
            words[0] = catch_words[0];
            rows.write(line, data_of(&words));
        }
        let others = rows.others(1);
        rows.hit(BAD, &others, hits);
        rows.undecided(1);
        let read = rows.read(1);
        assert_eq!((read.refusal, read.counts), (if moves == 1 { 0 } else { 21 }, [257, 1 << BAD | 1 << BESIDE, 1]));
        let mut moved = catch_words;
        moved[0] = moved[0].wrapping_add(STEP * moves);
        assert_eq!((read.record.catch_words, read.record.registers), (moved, moved));
    }
}

/// Damage of other lines that is a codeword is not counted, and is under no premise: the line is refused with 12 hits all the same.
#[test]
fn codewords_of_other_lines_do_not_count() {
    let mut rows = Rows::new(128);
    let others = rows.others(3);
    rows.hit(BAD, &others, 12);
    for line in &others[12..] {
        rows.damage(*line, BAD, [0, 0, 0, 0, 0, 0, 0, 1, 7]);
    }
    rows.undecided(3);
    rows.check(3, End::Refused);
    rows.hit(BAD, &others[12..], 1);
    rows.check(3, End::Answered);
}

/// Reads that make no diagnosis have three passes as before, in a row in which every line has the chip hit.
#[test]
fn other_cases_of_step_5_diagnose_no_row() {
    for (one, other, refusal) in [(ONE_BIT, ONE_BIT, 0), (WORD_300, ONE_BIT, 0), (CHECK_03, WORD_300, 21)] {
        let mut rows = Rows::new(128);
        let others = rows.others(9);
        rows.hit(BAD, &others, 127);
        rows.damage(9, BAD, one);
        rows.damage(9, BESIDE, other);
        let read = rows.twin.read(9, &mut rows.tally);
        assert_eq!((read.refusal, read.counts), (refusal, [3, 1 << BAD | 1 << BESIDE, 0]));
    }
}

/// No promise is made here: the chip with one bad bit is blamed and rebuilt from the word that the other one mended wrongly.
#[test]
fn outside_the_premise_a_line_that_was_refused_is_answered_with_wrong_bytes() {
    let mut rows = Rows::new(2);
    rows.damage(0, 0, CHECK_07);
    rows.damage(0, 1, ONE_BIT);
    rows.damage(1, 1, ONE_BIT);
    assert!(rows.plain.lines[0].premise() && !rows.plain.premise(0));
    let read = rows.read(0);
    let mut wrong = rows.written[0].clone();
    wrong[7] ^= 1;
    wrong[15] ^= 1;
    assert_eq!((read.refusal, read.counts, &read.buffer), (0, [5, 0b11, 0], &wrong));
    // The memory holds the wrong line as a write of it would lay it, so later reads can't tell.
    let again = rows.twin.read(0, &mut rows.tally);
    assert_eq!((again.refusal, again.counts[0], again.buffer), (0, 1, wrong));
}

/// The premise asks less than that no other chip reaches: where two reach nobody is blamed, and the plain memory refuses too.
#[test]
fn another_chip_may_reach_if_it_is_not_blamed() {
    let mut rows = Rows::new(11);
    let others = rows.others(10);
    rows.hit(BAD, &others, 1);
    rows.hit(BESIDE, &others[1..], 1);
    rows.undecided(10);
    rows.check(10, End::Refused);
}
