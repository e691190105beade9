//! Catch-words that data meets, in each chip: a collision moves them, and a moved one can meet data again.
use lemtskavo_trials::call::Outcome;
use lemtskavo_trials::model::code;
use lemtskavo_trials::patterns::{CHECK_03, CHECK_07, one_bit};
use lemtskavo_trials::random::Random;
use lemtskavo_trials::tally::Tally;
use lemtskavo_trials::twin::{TASK, Twin, UNREAD};
use lemtskavo_trials::words::{STEP, data_of, xor};

/// A word after so many moves.
fn moved(word: u64, moves: u64) -> u64 {
    word.wrapping_add(STEP.wrapping_mul(moves))
}

/// Random data with this word in a chip; that of chip 8 is the xor of the others.
fn data_with(chip: usize, word: u64, random: &mut Random) -> Vec<u8> {
    let mut words: [u64; 8] = random.words();
    if chip < 8 {
        words[chip] = word;
    } else {
        words[7] = word ^ xor(&words[..7]);
    }
    data_of(&words)
}

#[test]
fn catch_words_equal_to_words_held() {
    let mut tally = Tally::new("catch-words met");
    let mut random = tally.random();
    for chip in 0..9 {
        for start in [0, !0, STEP.wrapping_neg(), 0x1111_1111_1111_1111, random.word()] {
            // Line L holds the word that the catch-word has after L moves.
            let mut twin = Twin::new(4, [0x0123_4567_89AB_CDEF; 9], &mut tally);
            let data: [Vec<u8>; 4] = std::array::from_fn(|line| data_with(chip, moved(start, line as u64), &mut random));
            for (line, data) in (0..).zip(&data) {
                twin.write(line, data, &mut tally);
                assert_eq!(twin.word(line, chip), moved(start, u64::from(line)));
            }
            twin.renew(chip, start, &mut tally);
            each_visit_moves(twin.clone(), chip, &data, &mut tally);
            refused_visits_move_nothing(&twin, chip, &mut tally);
            complements_are_no_candidates(&twin, chip, start, &mut tally);

            let patrol = twin.patrol(0, 4, &mut tally);
            assert_eq!(patrol.counts, [4, 0, 0]);
            assert_eq!(patrol.record.catch_words[chip], moved(start, 4));
        }
    }
    tally.print();
}

/// Reads with none, one, two and eight other chips flagged; of the eight one is beyond mending.
fn each_visit_moves(mut twin: Twin, chip: usize, data: &[Vec<u8>; 4], tally: &mut Tally) {
    for (line, others) in [0, 1, 2, 8].into_iter().enumerate() {
        let mut flagged = 0;
        for place in 0..others {
            let other = (chip as u32 + 1 + place) % 9;
            flagged |= 1 << other;
            let pattern = if place == 7 { [0xFF; 9] } else { one_bit(5 * other as usize) };
            twin.fault(line as u32, other, &pattern, tally);
        }
        let before = twin.record();
        let read = twin.read(line as u32, tally);
        assert_eq!((read.refusal, read.counts), (0, [if others < 2 { 2 } else { 3 }, flagged, 1 << chip]));
        assert_eq!(read.buffer, data[line]);
        assert_eq!(read.record.catch_words[chip], moved(before.catch_words[chip], 1));
        assert_eq!(read.record.registers, read.record.catch_words);
        let mut repairs = before.repairs;
        repairs[TASK as usize] += others;
        assert_eq!(read.record.repairs, repairs);
    }
}

/// A collision in a line that is refused 20 or 21 leaves the record.
fn refused_visits_move_nothing(twin: &Twin, chip: usize, tally: &mut Tally) {
    let record = twin.record();
    let refused = |refusal, passes, flagged| Outcome { refusal, counts: [passes, flagged, 1 << chip], record, buffer: UNREAD.to_vec() };
    let (one, two) = ((chip as u32 + 1) % 9, (chip as u32 + 2) % 9);
    let mut codeword = twin.clone();
    codeword.fault(0, one, &code::codeword(0x10), tally);
    assert_eq!(codeword.read(0, tally), refused(20, 2, 0));

    // Words that don't xor to zero though each is mended, and two chips beyond mending.
    // The first of them asks the three other lines.
    for (first, second, passes) in [(CHECK_07, one_bit(0), 3 + 2 * 3), ([0xFF; 9], CHECK_03, 3)] {
        let mut lost = twin.clone();
        lost.fault(0, one, &first, tally);
        lost.fault(0, two, &second, tally);
        assert_eq!(lost.read(0, tally), refused(21, passes, 1 << one | 1 << two));
    }
}

/// A word that is the complement of the catch-word: no candidate while it is whole, flagged when it is not.
fn complements_are_no_candidates(twin: &Twin, chip: usize, held: u64, tally: &mut Tally) {
    let mut twin = twin.clone();
    twin.renew(chip, !held, tally);
    assert_eq!(twin.clone().read(0, tally).counts, [1, 0, 0]);
    let other = (chip as u32 + 3) % 9;
    twin.fault(0, other, &one_bit(70), tally);
    assert_eq!(twin.clone().read(0, tally).counts, [2, 1 << other, 0]);
    twin.fault(0, chip as u32, &one_bit(3), tally);
    assert_eq!(twin.read(0, tally).counts, [3, 1 << other | 1 << chip, 0]);
}
