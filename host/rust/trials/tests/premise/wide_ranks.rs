//! Lists on ranks whose line numbers need more than 12 and all of 16 bits.
use lemtskavo_trials::call::Call;
use lemtskavo_trials::patterns::{CHECK_07, WORD_300, random_bits};
use lemtskavo_trials::random::Random;
use lemtskavo_trials::tally::{STEP_5, Tally};

use crate::answers::run;
use crate::maker::Maker;

/// Calls on the last line and the one after it, for a task and for numbers that are none.
fn calls_on_the_last_line(round: u32, maker: &mut Maker) -> Vec<Call> {
    let last = maker.plain.lines.len() as u32 - 1;
    let fault = |chip, pattern: [u8; 9]| Call::Fault { line: last, chip, pattern: pattern.to_vec() };
    let read = |task, line, length| Call::Read { task, line, buffer: vec![1; length] };
    let mut calls = vec![Call::Write { line: last, data: maker.palette_line() }, Call::Renew { chip: 8, catch_word: 0 }];
    for chip in 0..round {
        calls.push(fault(chip, random_bits(&mut maker.random, 1)));
    }
    calls.extend([read(round + 8, last, 64), read(round, last, 64), read(round, last + 1, 64), read(u32::MAX - round, last + 1, 63)]);
    // Many bits beside one: beyond mending, and mended as one.
    for wide in [WORD_300, CHECK_07] {
        calls.extend([fault(4, wide), fault(5, random_bits(&mut maker.random, 1)), read(round, last, 64)]);
    }
    calls.push(Call::Write { line: last, data: maker.palette_line() });
    calls.push(fault(3, [0xFF; 9]));
    for task in [round + 256, 7 - round] {
        calls.push(Call::Patrol { task, first: last, budget: u32::MAX });
    }
    calls
}

/// One list on a rank of so many lines, under three kinds of catch-words.
fn wide_list(lines: usize, random: Random, tally: &mut Tally) {
    let mut maker = Maker::new(random, lines);
    let mut list = Vec::new();
    for round in 0..8 {
        // A bad row, which the random calls have made, can keep a visit of the last line outside the premise.
        for call in calls_on_the_last_line(round, &mut maker) {
            list.push(maker.kept(call, tally));
        }
        list.extend((0..20).map(|_| maker.next(tally)));
    }
    let end = maker.plain.memory();
    for catch_words in &maker.boot_catch_words()[..3] {
        run(&list, &end, *catch_words, tally);
    }
}

#[test]
fn lists_on_wide_ranks() {
    let mut tally = Tally::new("lists on wide ranks");
    tally.lists(0..12, |random, tally| wide_list(4_097, random, tally));
    tally.lists(12..15, |random, tally| wide_list(65_536, random, tally));
    tally.print();
    assert!(tally.calls() >= 5_000);
    tally.demand(&STEP_5[..3], 100);
    tally.demand(&["call that moved a catch-word"], 100);
}
