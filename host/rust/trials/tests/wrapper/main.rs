//! The safe wrapper: its refusals and what they leave, what it holds, the examples of document 01, and that it says what the header says.
mod beside_ffi;
mod calls;
mod examples;
mod header;
mod refusals;
mod ruled_out;

use lemtskavo::{CHIPS, LINE_BYTES, LINE_LIMIT, PATTERN_BYTES, Rank, Record, Visit, memory_bytes};

/// The catch-word of document 01's bench.
const CATCH_WORD: u64 = 0x1111_1111_1111_1111;

/// The task that calls name, as document 01's bench does by document 02's Req 01.
const TASK: u32 = 0;

const NO_VISIT: Visit = Visit { passes: 0, flagged: 0, collisions: 0 };

/// Lengths of a memory that no rank has.
const NO_RANK: [usize; 7] = [0, 1, 80, 82, 161, LIMIT + 1, LIMIT + LINE_BYTES];

/// The longest memory that a rank has.
const LIMIT: usize = memory_bytes(LINE_LIMIT as usize);

/// A memory for so many lines that is not clear.
fn memory(lines: usize) -> Vec<u8> {
    vec![0xFF; memory_bytes(lines)]
}

/// A rank with the catch-words of document 01's bench.
fn boot(memory: &mut [u8]) -> Rank<'_> {
    Rank::boot(memory, [CATCH_WORD; CHIPS]).unwrap()
}

/// All that a refused call must leave.
fn state(rank: &Rank<'_>) -> (Record, Vec<u8>) {
    (*rank.record(), rank.memory().to_vec())
}

/// The nine bytes of 18 hexadecimal digits, word then check.
fn pattern(digits: &str) -> [u8; PATTERN_BYTES] {
    std::array::from_fn(|place| u8::from_str_radix(&digits[2 * place..2 * place + 2], 16).unwrap())
}
