//! Repairs by task (document 02, Req 01), observed on the static library alone: what the eight totals add to, and that which of the eight
//! is named changes totals and nothing else. There is no premise: damage is of any kind, codewords and many chips among it. The model only
//! tells which cases are reached.
use lemtskavo::ffi::Record;
use lemtskavo_trials::arguments::Arguments;
use lemtskavo_trials::bad_row::BadRows;
use lemtskavo_trials::booted::Booted;
use lemtskavo_trials::call::{Call, Kind, Outcome};
use lemtskavo_trials::patterns::random_damage;
use lemtskavo_trials::random::Random;
use lemtskavo_trials::tally::{STEP_5, Tally};

/// Bytes that lines are filled with; eight of one byte are a catch-word too, so that they meet.
const FILLERS: [u8; 4] = [0x00, 0x11, 0xEE, 0xFF];

fn catch_word(random: &mut Random) -> u64 {
    if random.chance(70) { u64::from_be_bytes([random.pick(&FILLERS); 8]) } else { random.word() }
}

/// Any call, with wrong arguments at times, or the next one of a bad row.
fn any(bad_rows: &mut BadRows, arguments: &Arguments, random: &mut Random) -> Call {
    if let Some(call) = bad_rows.next(arguments, random) {
        return call;
    }
    match random.below(100) {
        0..=37 => Call::Fault { line: arguments.line(random), chip: arguments.chip(random), pattern: random_damage(random).to_vec() },
        38..=67 => arguments.read(random),
        68..=79 => arguments.patrol(random),
        80..=93 => Call::Write { line: arguments.line(random), data: vec![random.pick(&FILLERS); 64] },
        _ => Call::Renew { chip: arguments.chip(random), catch_word: catch_word(random) },
    }
}

fn booted(lines: usize, catch_words: [u64; 9], repairs: [u32; 8], tally: &mut Tally) -> Booted {
    let mut booted = Booted::new(lines, catch_words, tally);
    booted.record.repairs = repairs;
    booted
}

/// How many chips of lines hold other bytes. A word that is rewritten was no codeword before and is one then, so its bytes differ.
fn chips_changed(before: &[u8], after: &[u8]) -> u32 {
    before.chunks(9).zip(after.chunks(9)).filter(|(before, after)| before != after).count() as u32
}

fn sum(totals: [u32; 8]) -> u64 {
    totals.map(u64::from).iter().sum()
}

/// Runs a random list from totals of some value, and compares them after each call with the words rewritten for each task.
fn count(mut random: Random, start: [u32; 8], tally: &mut Tally) {
    let lines = 1 + random.below(4);
    let (arguments, mut bad_rows) = (Arguments::new(lines, 4), BadRows::new(4));
    let mut booted = booted(lines, std::array::from_fn(|_| catch_word(&mut random)), start, tally);
    let (mut by_task, mut in_all) = ([0; 8], 0);
    for _ in 0..random.below(120) {
        let call = any(&mut bad_rows, &arguments, &mut random);
        let (given, memory) = (booted.record, booted.memory.inside().to_vec());
        let outcome = booted.call(&call, tally);
        let totals = outcome.record.repairs;
        if let Some(task) = call.task() {
            assert_eq!(outcome.refusal == 31, task >= 8, "{call:?}");
            in_all += u64::from(chips_changed(&memory, booted.memory.inside()));
            let rewritten = call.rewritten(&outcome);
            note(task, rewritten, &given, tally);
            if rewritten > 0 {
                by_task[task as usize] += u64::from(rewritten);
            }
        }
        if !totals.contains(&u32::MAX) {
            assert_eq!(sum(totals), sum(start) + in_all, "{call:?}\nwith {given:?}");
        }
        let exact: [u64; 8] = std::array::from_fn(|task| u64::from(start[task]) + by_task[task]);
        assert_eq!(totals.map(u64::from), exact.map(|total| total.min(u64::from(u32::MAX))), "{call:?}\nwith {given:?}");
    }
    if sum(booted.record.repairs) > u64::from(u32::MAX) {
        tally.case("list with a sum over 32 bits");
    }
}

fn note(task: u32, rewritten: u32, before: &Record, tally: &mut Tally) {
    if rewritten == 0 {
        return;
    }
    match u32::MAX - before.repairs[task as usize] {
        0 => tally.case("repair for a total that has stopped"),
        left if left <= rewritten => tally.case("repair that stops a total"),
        _ if before.repairs.contains(&u32::MAX) => tally.case("repair counted beside a total that has stopped"),
        _ => tally.case("repair counted"),
    }
}

#[test]
fn the_totals_add_to_all_words_rewritten_since_boot() {
    let mut tally = Tally::new("totals from boot");
    tally.lists(0..3_000, |random, tally| count(random, [0; 8], tally));
    tally.print();
    tally.demand(&["repair counted"], 10_000);
    tally.demand(&STEP_5, 500);
    tally.demand_refusals(Kind::Read, &[20, 21, 31], 100);
    tally.demand_refusals(Kind::Patrol, &[31], 100);
}

#[test]
fn a_total_that_has_stopped_stays_and_the_others_are_exact() {
    let mut tally = Tally::new("totals near their end");
    tally.lists(0..3_000, |mut random, tally| {
        let start = std::array::from_fn(|_| match random.below(4) {
            0 => 0,
            1 => random.word() as u32,
            _ => u32::MAX - random.number(12),
        });
        count(random, start, tally);
    });
    tally.print();
    let cases = [
        "repair for a total that has stopped",
        "repair that stops a total",
        "repair counted beside a total that has stopped",
        "list with a sum over 32 bits",
    ];
    tally.demand(&cases, 500);
    tally.demand(&STEP_5, 500);
}

/// The same call with another of the eight tasks, or the same one. A number that is no task stays.
fn renamed(call: &Call, random: &mut Random) -> Call {
    let mut call = call.clone();
    if let Call::Read { task: task @ 0..8, .. } | Call::Patrol { task: task @ 0..8, .. } = &mut call {
        *task = random.number(8);
    }
    call
}

fn without_totals(outcome: Outcome) -> Outcome {
    Outcome { record: Record { repairs: [0; 8], ..outcome.record }, ..outcome }
}

/// Runs one list twice, each time for other tasks: from totals of 0, and in half of the lists from totals near their end.
fn rename(mut random: Random, tally: &mut Tally) {
    let lines = 1 + random.below(4);
    let (arguments, mut bad_rows) = (Arguments::new(lines, 4), BadRows::new(4));
    let catch_words = std::array::from_fn(|_| catch_word(&mut random));
    let near_end = random.chance(50);
    let start = std::array::from_fn(|_| if near_end { u32::MAX - random.number(12) } else { 0 });
    let (mut one, mut other) = (booted(lines, catch_words, [0; 8], tally), booted(lines, catch_words, start, tally));
    for _ in 0..random.below(120) {
        let call = any(&mut bad_rows, &arguments, &mut random);
        let renamed = renamed(&call, &mut random);
        let (here, there) = (one.call(&call, tally), other.call(&renamed, tally));
        if call.task() != renamed.task() && call.rewritten(&here) > 0 {
            tally.case("repair for different tasks");
        }
        assert_eq!(without_totals(here), without_totals(there), "{call:?} and {renamed:?}");
        assert!(one.memory.inside() == other.memory.inside(), "{call:?} and {renamed:?}: the memories differ");
    }
    if !near_end {
        assert_eq!(sum(one.record.repairs), sum(other.record.repairs));
        tally.case("list with equal sums");
    }
}

#[test]
fn which_task_is_named_changes_totals_alone() {
    let mut tally = Tally::new("tasks renamed");
    tally.lists(0..3_000, rename);
    tally.print();
    tally.demand(&["repair for different tasks"], 10_000);
    tally.demand(&["list with equal sums"], 1_000);
    tally.demand(&STEP_5, 500);
}
