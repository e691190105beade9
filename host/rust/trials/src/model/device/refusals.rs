//! Document 01, "Refusals caused by the input" and "Refusals caused by the state", and document 02's 31: conditions and their order.
use super::{LINE, Record};

/// A condition, and the number that it is refused by.
pub(super) type Condition = (bool, u32);

/// The number of the first condition that is met, 0 for none ("Order").
pub(super) fn first_met(conditions: &[Condition]) -> u32 {
    conditions.iter().find(|(met, _)| *met).map_or(0, |(_, number)| *number)
}

/// A call that is given record and memory: 12, 13 and 14 come before the conditions on its arguments ("Order").
pub(super) fn first_met_after_state(record: &Record, memory: &[u8], arguments: &[Condition]) -> u32 {
    let state = [not_ready(record), other_length(record, memory), registers_differ(record)];
    match first_met(&state) {
        0 => first_met(arguments),
        refusal => refusal,
    }
}

/// Refusal 11 ("Refusals caused by the state").
pub(super) fn no_rank(memory: &[u8]) -> Condition {
    (memory.is_empty() || !memory.len().is_multiple_of(LINE) || memory.len() / LINE > Record::LIMIT as usize, 11)
}

/// Refusal 12 ("Refusals caused by the state").
pub(super) fn not_ready(record: &Record) -> Condition {
    (!record.enable || record.lines < 1 || record.lines > Record::LIMIT, 12)
}

/// Refusal 13 ("Refusals caused by the state").
fn other_length(record: &Record, memory: &[u8]) -> Condition {
    (memory.len() as u64 != LINE as u64 * u64::from(record.lines), 13)
}

/// Refusal 14 ("Refusals caused by the state").
pub(super) fn registers_differ(record: &Record) -> Condition {
    (record.registers != record.catch_words, 14)
}

/// Refusal 31: "task not below 8, tested after 14 and before 1" (Req 01).
pub(super) fn no_task(task: u32) -> Condition {
    (task >= 8, 31)
}

/// Refusal 1: "line, or patrol's first line, not below N" ("Refusals caused by the input").
pub(super) fn no_line(record: &Record, line: u32) -> Condition {
    (line >= record.lines, 1)
}

/// Refusal 2: "line buffer not 64 bytes" ("Refusals caused by the input").
pub(super) fn no_line_buffer(buffer: &[u8]) -> Condition {
    (buffer.len() != 64, 2)
}

/// Refusal 3: "chip not below 9" ("Refusals caused by the input").
pub(super) fn no_chip(chip: u32) -> Condition {
    (chip >= 9, 3)
}

/// Refusal 4: "pattern not 9 bytes" ("Refusals caused by the input").
pub(super) fn no_pattern(pattern: &[u8]) -> Condition {
    (pattern.len() != 9, 4)
}

/// Refusal 5: "not nine catch-words" ("Refusals caused by the input").
pub(super) fn not_nine(catch_words: &[u64]) -> Condition {
    (catch_words.len() != 9, 5)
}
