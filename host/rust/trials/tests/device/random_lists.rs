//! Random fault lists: every refusal of every call, and every case that the lists are there for.
use lemtskavo_trials::bad_row::RANKS;
use lemtskavo_trials::call::Kind;
use lemtskavo_trials::random::Random;
use lemtskavo_trials::tally::{STEP_5, Tally};
use lemtskavo_trials::twin::Twin;

use crate::list::List;

/// Boot with wrong lengths and wrong counts, alone and together.
fn random_boot(random: &mut Random, tally: &mut Tally) {
    let length = if random.chance(50) { 81 * (1 + random.below(8)) } else { random.below(700) };
    let count = if random.chance(60) { 9 } else { random.below(21) };
    let catch_words: Vec<u64> = (0..count).map(|_| random.word()).collect();
    Twin::boot(length, &catch_words, tally);
}

#[test]
fn random_lists_agree() {
    let mut tally = Tally::new("random lists");
    tally.lists(0..12_000, |mut random, tally| {
        random_boot(&mut random, tally);
        let lines = 1 + random.below(8);
        let calls = 20 + random.below(60);
        let mut list = List::new(random, lines, tally);
        for _ in 0..calls {
            list.step(tally);
        }
    });
    tally.print();
    assert!(tally.calls() >= 500_000);
    tally.demand_possible(&Kind::ALL, &[], 100);
    let cases = [
        "damage on a line repaired before",
        "damage on a line repaired before, under a moved catch-word",
        "answered read, none flagged",
        "answered read, one flagged",
        "answered read, two or more flagged",
        "answered read with other bytes than written",
        "answered read, chip 8 flagged",
        "answered read, collision in a data chip",
        "answered read, collision in chip 8",
        "answered read, collision of a moved catch-word",
        "answered read, flagged under a moved catch-word",
        "answered read, flagged and collision together",
        "refused 20 with a collision",
        "refused 21 with a collision",
        "patrol with refused lines",
        "answered read that document 01 refuses 21 without Req 02",
        "read refused 21 that document 01 answers without Req 02",
        "answered read that is refused 21 without Req 04",
        "repair total reaches 4,294,967,295",
        "repair at a total of 4,294,967,295",
        "repair counted beside a total of 4,294,967,295",
        "refused 12 or 13 with a task not below 8",
        "refused 14 with a task not below 8",
        "refused 31 alone",
        "refused 31 with a wrong line",
        "refused 31 with a wrong buffer",
        "refused 31 with a wrong line and a wrong buffer",
    ];
    tally.demand(&cases, 100);
    tally.demand(&STEP_5, 500);
}

#[test]
fn random_lists_on_rows_agree() {
    let mut tally = Tally::new("random lists on rows");
    tally.lists(0..1_000, |mut random, tally| {
        let lines = random.pick(&RANKS);
        let mut list = List::new(random, lines, tally);
        for _ in 0..200 {
            list.step(tally);
        }
    });
    tally.print();
    tally.demand(&["answered read that is refused 21 without Req 04", "patrol with refused lines"], 100);
    tally.demand(&STEP_5, 100);
}
