//! The calls through the wrapper: what each refuses and leaves, what it gives, and what a rank holds.
use lemtskavo::{CHIPS, LINE_BYTES, LINE_LIMIT, Patrol, Rank, Read, Record, Refusal, RefusedRead, TASK_LIMIT, Visit};

use crate::{CATCH_WORD, NO_RANK, NO_VISIT, TASK, boot, memory, pattern, state};

#[test]
fn boot_refuses_11() {
    for length in NO_RANK {
        let mut memory = vec![0x3C; length];
        assert_eq!(Rank::boot(&mut memory, [CATCH_WORD; CHIPS]).unwrap_err(), Refusal::BootMemoryLength);
        assert!(memory.iter().all(|byte| *byte == 0x3C));
    }
}

#[test]
fn boot_clears_the_memory_and_sets_the_record() {
    let mut memory = memory(LINE_LIMIT as usize);
    let catch_words = std::array::from_fn(|chip| CATCH_WORD * (chip as u64 + 1));
    let rank = Rank::boot(&mut memory, catch_words).unwrap();
    let expected = Record { lines: LINE_LIMIT, enable: true, catch_words, registers: catch_words, repairs: [0; TASK_LIMIT] };
    assert_eq!((rank.record(), rank.lines(), rank.repairs()), (&expected, LINE_LIMIT, [0; TASK_LIMIT]));
    assert!(rank.memory().iter().all(|byte| *byte == 0));
}

#[test]
fn a_rank_gives_its_memory_back() {
    let mut memory = memory(2);
    let mut rank = boot(&mut memory);
    rank.write(1, &[0x42; 64]).unwrap();
    let held = rank.memory().to_vec();
    let shown = format!("{rank:?}");
    assert!(shown.contains("162 bytes") && shown.contains("catch_words") && shown.len() < 700, "{shown}");
    let lent: &mut [u8] = rank.into_memory();
    assert_eq!(lent, held);
    assert_eq!(memory[LINE_BYTES], 0x42);
}

#[test]
fn arguments_that_are_refused() {
    let mut memory = memory(4);
    let mut rank = boot(&mut memory);
    rank.write(0, &[0x42; 64]).unwrap();
    let given = state(&rank);
    for line in [4, 5, 4_096, 65_536, 65_537, 1 << 31, u32::MAX] {
        assert_eq!(rank.write(line, &[0; 64]), Err(Refusal::LineOutOfRange));
        assert_eq!(rank.read(TASK, line), Err(RefusedRead { refusal: Refusal::LineOutOfRange, visit: NO_VISIT }));
        assert_eq!(rank.patrol(TASK, line, 0), Err(Refusal::LineOutOfRange));
        assert_eq!(rank.fault(line, 9, &[1; 9]), Err(Refusal::LineOutOfRange));
    }
    for chip in [9, 10, 256, 65_536, u32::MAX] {
        assert_eq!(rank.renew(chip, 0), Err(Refusal::ChipOutOfRange));
        assert_eq!(rank.fault(0, chip, &[1; 9]), Err(Refusal::ChipOutOfRange));
    }
    assert_eq!(state(&rank), given);
}

#[test]
fn tasks_not_below_8_are_refused_before_the_line() {
    let mut memory = memory(2);
    let mut rank = boot(&mut memory);
    rank.fault(0, 1, &[0xFF; 9]).unwrap();
    let given = state(&rank);
    for task in [8, 9, 15, 16, 255, 256 + 3, 65_536, 1 << 31, u32::MAX] {
        for line in [0, 2, u32::MAX] {
            assert_eq!(rank.read(task, line), Err(RefusedRead { refusal: Refusal::TaskOutOfRange, visit: NO_VISIT }));
            for budget in [0, 1, u32::MAX] {
                assert_eq!(rank.patrol(task, line, budget), Err(Refusal::TaskOutOfRange));
            }
        }
    }
    assert_eq!(state(&rank), given);
}

#[test]
fn only_the_task_that_is_named_counts() {
    let mut memory = memory(3);
    let mut rank = boot(&mut memory);
    let mut expected = [0; TASK_LIMIT];
    for task in 0..TASK_LIMIT {
        for line in 0..3 {
            rank.fault(line, task as u32, &[0xFF; 9]).unwrap();
        }
        rank.read(task as u32, 2).unwrap();
        expected[task] += 1;
        assert_eq!(rank.repairs(), expected);
        let other = (task + 3) % TASK_LIMIT;
        assert_eq!(rank.patrol(other as u32, 0, 3), Ok(Patrol { visited: 3, refused: 0, rewritten: 2 }));
        expected[other] += 2;
        assert_eq!(rank.repairs(), expected);
    }
}

#[test]
fn a_refused_read_carries_its_visit() {
    let mut memory = memory(2);
    let mut rank = boot(&mut memory);
    rank.write(0, &[0x22; 64]).unwrap();
    // The codeword of word 1 leaves a codeword that parity alone can see.
    rank.fault(0, 2, &pattern("000000000000000107")).unwrap();
    let given = state(&rank);
    let visit = Visit { passes: 1, flagged: 0, collisions: 0 };
    assert_eq!(rank.read(TASK, 0), Err(RefusedRead { refusal: Refusal::Unlocated, visit }));
    assert_eq!(state(&rank), given);
    // The same with a catch-word that chip 4 holds: a collision is reported, and the catch-word stays.
    rank.renew(4, 0x2222_2222_2222_2222).unwrap();
    let renewed = state(&rank);
    let visit = Visit { passes: 2, flagged: 0, collisions: 1 << 4 };
    assert_eq!(rank.read(TASK, 0), Err(RefusedRead { refusal: Refusal::Unlocated, visit }));
    assert_eq!(state(&rank), renewed);
    rank.renew(4, CATCH_WORD).unwrap();
    assert_eq!(state(&rank), given);

    // Chip 0 inverts a bit of its word that is right, and the other line blames none; then chips 0 and 8 are both beyond mending.
    for (zero, eight, passes) in [("000000000000000007", "000000000000000001", 5), ("ffffffffffffffffff", "000000000000000003", 3)] {
        rank.write(1, &[0x33; 64]).unwrap();
        rank.fault(1, 0, &pattern(zero)).unwrap();
        rank.fault(1, 8, &pattern(eight)).unwrap();
        let given = state(&rank);
        let visit = Visit { passes, flagged: 0x101, collisions: 0 };
        assert_eq!(rank.read(TASK, 1), Err(RefusedRead { refusal: Refusal::Uncorrectable, visit }));
        assert_eq!(state(&rank), given);
    }
}

#[test]
fn one_chip_beyond_mending_beside_one_bit_is_answered() {
    let mut memory = memory(1);
    let mut rank = boot(&mut memory);
    rank.write(0, &[0x44; 64]).unwrap();
    let written = rank.memory().to_vec();
    rank.fault(0, 0, &[0xFF; 9]).unwrap();
    rank.fault(0, 8, &pattern("000000000000000001")).unwrap();
    assert_eq!(rank.read(TASK, 0), Ok(Read { data: [0x44; 64], visit: Visit { passes: 3, flagged: 0x101, collisions: 0 } }));
    assert_eq!(rank.memory(), written);
    assert_eq!(rank.repairs(), [2, 0, 0, 0, 0, 0, 0, 0]);
}

#[test]
fn a_chip_that_the_row_blames_is_answered() {
    let mut memory = memory(3);
    let mut rank = boot(&mut memory);
    rank.write(0, &[0x44; 64]).unwrap();
    rank.fault(0, 0, &pattern("000000000000000007")).unwrap();
    rank.fault(0, 8, &pattern("000000000000000001")).unwrap();
    let visit = Visit { passes: 7, flagged: 0x101, collisions: 0 };
    assert_eq!(rank.read(TASK, 0), Err(RefusedRead { refusal: Refusal::Uncorrectable, visit }));
    rank.fault(2, 0, &pattern("000000000000000001")).unwrap();
    assert_eq!(rank.read(TASK, 0), Ok(Read { data: [0x44; 64], visit }));
    assert_eq!(rank.repairs(), [2, 0, 0, 0, 0, 0, 0, 0]);
}

#[test]
fn a_patrol_goes_on_after_a_refused_line() {
    let mut memory = memory(4);
    let mut rank = boot(&mut memory);
    rank.fault(1, 0, &pattern("000000000000000107")).unwrap();
    rank.fault(2, 7, &[0xFF; 9]).unwrap();
    rank.fault(3, 0, &pattern("000000000000000001")).unwrap();
    rank.fault(3, 8, &pattern("800000000000000000")).unwrap();
    rank.fault(3, 4, &pattern("000000000000030000")).unwrap();
    assert_eq!(rank.patrol(TASK, 0, u32::MAX), Ok(Patrol { visited: 4, refused: 1, rewritten: 4 }));
    assert_eq!(rank.repairs(), [4, 0, 0, 0, 0, 0, 0, 0]);
    assert_eq!(rank.patrol(TASK, 2, 9), Ok(Patrol { visited: 2, refused: 0, rewritten: 0 }));
}
