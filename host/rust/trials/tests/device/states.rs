//! States that refuse every call: registers, records and memories that do not fit.
use lemtskavo_trials::call::Call;
use lemtskavo_trials::tally::Tally;
use lemtskavo_trials::twin::{TASK, Twin, UNREAD};

/// The five calls with arguments that are right for a rank of four lines.
fn right_calls() -> [Call; 5] {
    [
        Call::Write { line: 3, data: vec![0x77; 64] },
        Call::Read { task: TASK, line: 3, buffer: UNREAD.to_vec() },
        Call::Patrol { task: TASK, first: 0, budget: 4 },
        Call::Renew { chip: 8, catch_word: 99 },
        Call::Fault { line: 3, chip: 8, pattern: vec![0x11; 9] },
    ]
}

/// Every call is refused with 14.
fn registers_refused(twin: &Twin, tally: &mut Tally) {
    for call in right_calls() {
        assert_eq!(twin.clone().call(&call, tally).refusal, 14);
    }
}

#[test]
fn each_bit_of_each_register_counts() {
    let mut tally = Tally::new("registers");
    let twin = Twin::new(4, [0x1111_1111_1111_1111; 9], &mut tally);
    for chip in 0..9 {
        for bit in 0..64 {
            let mut broken = twin.clone();
            broken.library.record.registers[chip] ^= 1 << bit;
            registers_refused(&broken, &mut tally);
        }
    }
    // Registers that are the catch-words of other chips, or the complements that pass two uses.
    let mut broken = twin.clone();
    broken.library.record.catch_words = std::array::from_fn(|chip| chip as u64);
    broken.library.record.registers = std::array::from_fn(|chip| (chip as u64 + 1) % 9);
    registers_refused(&broken, &mut tally);
    let mut broken = twin.clone();
    broken.library.record.registers = twin.record().registers.map(|register| !register);
    registers_refused(&broken, &mut tally);
    tally.print();
}

/// Makes a call on a rank that was four lines, with these in its record and its memory.
fn call_on(twin: &Twin, call: &Call, lines: u32, length: usize, enable: bool, tally: &mut Tally) {
    let mut broken = twin.clone();
    broken.set_length(length);
    broken.library.record.lines = lines;
    broken.library.record.enable = enable;
    let refusal = broken.call(call, tally).refusal;
    let renew = matches!(call, Call::Renew { .. });
    if !enable || lines == 0 || lines > 65_536 {
        assert_eq!(refusal, 12);
        tally.case(if enable { "N out of bounds" } else { "Enable clear" });
    } else if !renew && length as u64 != 81 * u64::from(lines) {
        assert_eq!(refusal, 13);
        tally.case("other length");
    } else if renew {
        // Renew has no memory, so its length is no matter.
        assert_eq!(refusal, 0);
        tally.case("renew passes 13 over");
    }
}

#[test]
fn records_and_memories_that_do_not_fit() {
    let mut tally = Tally::new("records and memories");
    let twin = Twin::new(4, [9; 9], &mut tally);
    for lines in [0, 1, 3, 4, 5, 4_096, 65_535, 65_536, 65_537, 65_540, 0x8000_0004, u32::MAX] {
        for length in [0, 1, 80, 81, 82, 242, 243, 244, 323, 324, 325, 404, 405, 406] {
            for call in right_calls() {
                call_on(&twin, &call, lines, length, true, &mut tally);
                call_on(&twin, &call, lines, length, false, &mut tally);
            }
        }
    }
    tally.demand(&["N out of bounds", "Enable clear", "other length", "renew passes 13 over"], 90);
    tally.print();
}
