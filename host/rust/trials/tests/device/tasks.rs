//! Tasks: numbers that are none, and each total at its end.
use lemtskavo_trials::arguments::FAR_TASKS;
use lemtskavo_trials::call::{Call, Outcome};
use lemtskavo_trials::patterns::{one_bit, random_bits};
use lemtskavo_trials::random::Random;
use lemtskavo_trials::tally::Tally;
use lemtskavo_trials::twin::Twin;

/// No number but 0 to 7 is a task, whatever its bits above the third are. The lines are such that a visit would change memory, record and
/// buffer.
#[test]
fn tasks_not_below_8_are_refused() {
    let mut tally = Tally::new("tasks");
    let mut random = tally.random();
    // Cleared words meet catch-word 0.
    let mut twin = Twin::new(4, [0, 1, 2, 3, 4, 5, 6, 7, 0], &mut tally);
    twin.library.record.repairs = [0, 1, 2, 3, 4, u32::MAX - 1, u32::MAX, 7];
    twin.fault(1, 3, &[0xFF; 9], &mut tally);
    twin.fault(2, 7, &one_bit(9), &mut tally);
    twin.fault(2, 8, &one_bit(60), &mut tally);
    for task in 0..8 {
        assert_eq!(twin.clone().read_for(task, 1, &mut tally).refusal, 0);
        assert_eq!(twin.clone().patrol_for(task, 0, 4, &mut tally).counts, [4, 0, 3]);
    }
    let memory = twin.library.memory.inside().to_vec();
    let bits = (3..32).flat_map(|bit| (0..8).map(move |low| 1 << bit | low));
    for task in (8..300).chain(bits).chain(FAR_TASKS) {
        for line in [0, 1, 2, 4, u32::MAX] {
            task_refused(&mut twin, task, line, &mut random, &mut tally);
        }
    }
    assert!(twin.library.memory.inside() == memory, "a refused call changed the memory");
    tally.print();
}

/// Reads and patrols of a line are refused with 31, whatever else they are given.
fn task_refused(twin: &mut Twin, task: u32, line: u32, random: &mut Random, tally: &mut Tally) {
    let refused = Outcome { refusal: 31, counts: [0; 3], record: twin.record(), buffer: Vec::new() };
    for length in [64, 63, 0] {
        let buffer = random.bytes(length);
        let read = twin.call(&Call::Read { task, line, buffer: buffer.clone() }, tally);
        assert_eq!(read, Outcome { buffer, ..refused.clone() });
    }
    for budget in [0, 1, u32::MAX] {
        assert_eq!(twin.patrol_for(task, line, budget, tally), refused);
    }
}

/// A rank of three lines with so many chips flagged in each. In line 1 the last of them is beyond mending, and counts as the others do.
fn damaged(flagged: u32, random: &mut Random, tally: &mut Tally) -> Twin {
    let mut twin = Twin::new(3, [0xABCD; 9], tally);
    let data = random.bytes(64);
    for line in 0..3 {
        twin.write(line, &data, tally);
        for chip in 0..flagged {
            let wide = line == 1 && chip + 1 == flagged;
            let pattern = if wide { [0xFF; 9] } else { random_bits(random, 1) };
            twin.fault(line, chip, &pattern, tally);
        }
    }
    twin
}

/// Visits for a task whose total is short of its end by so much, and then one for another task.
fn totals_end(mut twin: Twin, task: usize, short: u32, flagged: u32, tally: &mut Tally) {
    let mut others: [u32; 8] = std::array::from_fn(|other| 1_000 * other as u32);
    others[(task + 1) % 8] = u32::MAX;
    others[(task + 2) % 8] = u32::MAX - 1;
    let ends_at = |left: u32| {
        let mut repairs = others;
        repairs[task] = u32::MAX - left;
        repairs
    };
    twin.library.record.repairs = ends_at(short);
    let patrol = twin.clone().patrol_for(task as u32, 0, 3, tally);
    assert_eq!(patrol.counts, [3, 0, 3 * flagged]);
    assert_eq!(patrol.record.repairs, ends_at(short.saturating_sub(3 * flagged)));
    let read = twin.read_for(task as u32, 1, tally);
    let mut expected = ends_at(short.saturating_sub(flagged));
    assert_eq!(read.record.repairs, expected);
    let other = (task + 3) % 8;
    expected[other] += flagged;
    assert_eq!(twin.read_for(other as u32, 0, tally).record.repairs, expected);
}

/// Each task's total grows to 4,294,967,295 and stays there; the seven others stay whatever they are, and count on when they are named.
#[test]
fn each_repair_total_stays_at_its_end() {
    let mut tally = Tally::new("repair totals");
    let mut random = tally.random();
    for flagged in 0..=9 {
        let twin = damaged(flagged, &mut random, &mut tally);
        for task in 0..8 {
            for short in 0..30 {
                totals_end(twin.clone(), task, short, flagged, &mut tally);
            }
        }
    }
    tally.print();
}
