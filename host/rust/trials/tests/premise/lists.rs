//! Random lists under the premise, each under several kinds of catch-words.
use lemtskavo_trials::bad_row::RANKS;
use lemtskavo_trials::call::{Call, Kind};
use lemtskavo_trials::tally::{STEP_5, Tally};

use crate::answers::{Answer, run};
use crate::maker::Maker;

/// Makes a list of so many random calls and runs it under each kind of catch-words.
fn run_random(mut maker: Maker, calls: usize, tally: &mut Tally) {
    let list: Vec<(Call, Answer)> = (0..calls).map(|_| maker.next(tally)).collect();
    let end = maker.plain.memory();
    for catch_words in maker.boot_catch_words() {
        run(&list, &end, catch_words, tally);
    }
}

#[test]
fn lists_under_the_premise() {
    let mut tally = Tally::new("lists under the premise");
    tally.lists(0..2_400, |mut random, tally| {
        // Some lists are short and one in eighty or so is empty, so that the memory is seen at all times.
        let (lines, calls) = (1 + random.below(4), random.below(81));
        run_random(Maker::new(random, lines), calls, tally);
    });
    tally.print();
    assert!(tally.calls() >= 400_000);
    let cases = [
        "answered read, none flagged",
        "answered read, one flagged",
        "answered read, two or more flagged",
        "read refused 21",
        "read with a collision",
        "read with a collision and a flagged chip",
        "call that moved a catch-word",
        "visit with many bits in one chip, beyond mending, and one bit in others",
        "visit with many bits in one chip, mended as one, and one bit in others",
        "visit of a line that was outside the premise in between",
        "call left out, its visit would break the premise",
        "visits after repairs for several tasks",
        "visit that diagnoses the row, answered",
        "visit that diagnoses the row, refused",
    ];
    tally.demand(&cases, 200);
    tally.demand(&STEP_5[..4], 200);
    assert_eq!(tally.count(STEP_5[4]), 0, "under the premise one chip at most is beyond mending");
    tally.demand(&["read refused 31 of a line outside the premise"], 10);
    tally.demand_possible(&Kind::ALL[1..], &[12, 13, 14, 20], 100);
    assert_eq!(tally.refused(Kind::Read, 20), 0, "under the premise no read is refused 20");
}

#[test]
fn lists_on_rows() {
    let mut tally = Tally::new("lists on rows");
    tally.lists(0..400, |mut random, tally| {
        let lines = random.pick(&RANKS);
        run_random(Maker::new(random, lines), 200, tally);
    });
    tally.print();
    let cases = [
        "visit that diagnoses the row, answered",
        "visit that diagnoses the row, refused",
        "call left out, another chip would be blamed",
        "read with a collision and a flagged chip",
    ];
    tally.demand(&cases, 100);
    tally.demand(&STEP_5[..4], 100);
}
