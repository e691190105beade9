//! The examples of document 01.
use lemtskavo::{Patrol, Rank, Refusal, RefusedRead};

use crate::{NO_VISIT, TASK, boot, memory, pattern, state};

#[test]
fn check_bytes() {
    let mut memory = memory(1);
    let mut rank = boot(&mut memory);
    for example in [
        "000000000000000000",
        "000000000000000107",
        "000000000000008089",
        "00000000000000fff3",
        "000000000000010015",
        "010000000000000013",
        "8000000000000000bf",
        "ffffffffffffffffd7",
    ] {
        let cell = pattern(example);
        let mut data = [0; 64];
        data[..8].copy_from_slice(&cell[..8]);
        rank.write(0, &data).unwrap();
        assert_eq!((&rank.memory()[..9], &rank.memory()[72..]), (&cell[..], &cell[..]), "{example}");
    }
}

#[test]
fn budget_0_visits_none() {
    let mut memory = memory(2);
    let mut rank = boot(&mut memory);
    rank.fault(0, 1, &[0xFF; 9]).unwrap();
    let given = state(&rank);
    for first in 0..2 {
        assert_eq!(rank.patrol(TASK, first, 0), Ok(Patrol { visited: 0, refused: 0, rewritten: 0 }));
    }
    assert_eq!(state(&rank), given);
}

#[test]
fn a_rank_of_4097_lines() {
    let mut memory = memory(4_097);
    let mut rank = boot(&mut memory);
    assert_eq!(rank.lines(), 4_097);
    rank.write(4_096, &[0x42; 64]).unwrap();
    assert_eq!(rank.write(4_097, &[0x43; 64]), Err(Refusal::LineOutOfRange));
    assert_eq!(rank.read(TASK, 4_096).unwrap().data, [0x42; 64]);
    assert_eq!(rank.read(TASK, 4_097), Err(RefusedRead { refusal: Refusal::LineOutOfRange, visit: NO_VISIT }));
    assert_eq!(rank.read(TASK, 0).unwrap().data, [0; 64]);
}

/// One event of document 01's bench, made through the wrapper, and the line that it prints.
fn event(rank: &mut Rank<'_>, line: &str) -> String {
    let number = |result: Result<(), Refusal>| result.err().map_or(0, Refusal::number);
    let fields: Vec<&str> = line.split(' ').collect();
    let at = fields[1].parse().unwrap();
    match fields[0] {
        "w" => format!("w {}", number(rank.write(at, &[u8::from_str_radix(fields[2], 16).unwrap(); 64]))),
        "f" => format!("f {}", number(rank.fault(at, fields[2].parse().unwrap(), &pattern(fields[3])))),
        _ => match rank.read(TASK, at) {
            Err(refused) => format!("r {}", refused.refusal.number()),
            Ok(read) => {
                let word = u64::from_be_bytes(*read.data.first_chunk().unwrap());
                format!("r 0 {word:016x} {} {:03x} {:03x}", read.visit.passes, read.visit.flagged, read.visit.collisions)
            }
        },
    }
}

#[test]
fn the_bench_script() {
    let script = [
        ("w 0 11", "w 0"),
        ("r 0", "r 0 1111111111111111 2 000 0ff"),
        ("r 0", "r 0 1111111111111111 1 000 000"),
        ("f 0 3 000000000000000007", "f 0"),
        ("r 0", "r 0 1111111111111111 2 008 000"),
        ("f 0 3 000000000000000007", "f 0"),
        ("f 0 5 000000000000000100", "f 0"),
        ("r 0", "r 21"),
    ];
    let mut memory = memory(4);
    let mut rank = boot(&mut memory);
    for (input, output) in script {
        assert_eq!(event(&mut rank, input), output, "after {input}");
    }
}
