//! Document 01, "A visit to a line", with the tasks, the chips' status and the row diagnosis of document 02's Req 01, Req 02 and Req 04.
use super::row;
use super::{LINE, Record};
use crate::model::code::{self, Cell, Status};

/// Where the nine bytes of a chip of a line lie ("The rank").
pub(super) fn place(line: u32, chip: usize) -> std::ops::Range<usize> {
    let start = LINE * line as usize + 9 * chip;
    start..start + 9
}

/// The nine bytes that a chip holds of a line ("The rank").
pub fn held(memory: &[u8], line: u32, chip: usize) -> Cell {
    memory[place(line, chip)].try_into().unwrap()
}

/// Lays a word and its check byte in one chip of a line ("The rank").
pub(super) fn lay(memory: &mut [u8], line: u32, chip: usize, word: u64) {
    memory[place(line, chip)].copy_from_slice(&code::codeword(word));
}

/// The xor of words ("The rank", equation 1).
pub(super) fn xor(words: &[u64]) -> u64 {
    words.iter().fold(0, |sum, word| sum ^ word)
}

/// With Enable set a chip sends its word or its register, with Enable clear M ("The code inside a chip").
fn sent(enable: bool, register: u64, held: &Cell) -> u64 {
    if !enable {
        code::mended(held)
    } else if code::is_codeword(held) {
        code::word(held)
    } else {
        register
    }
}

/// One pass: what the nine chips of a line send ("A visit to a line").
fn pass(enable: bool, registers: &[u64; 9], memory: &[u8], line: u32) -> [u64; 9] {
    std::array::from_fn(|chip| sent(enable, registers[chip], &held(memory, line, chip)))
}

/// What the nine chips of a line tell "for each word sent with Enable clear" (Req 02).
pub fn statuses(memory: &[u8], line: u32) -> [Status; 9] {
    std::array::from_fn(|chip| code::status(&held(memory, line, chip)))
}

/// The words with that of one chip replaced by the xor of the other eight ("A visit to a line", step 4, Req 02 and Req 04).
fn rebuilt(mut words: [u64; 9], chip: usize) -> [u64; 9] {
    // Leaving a word out of the sum is the xor of the others.
    words[chip] = 0;
    words[chip] = xor(&words);
    words
}

/// Step 5 as document 01 has it, or as a request of document 02 changed it: the former ones are there to compare with.
#[derive(Clone, Copy, Debug, PartialEq, Eq, PartialOrd)]
pub enum Step5 {
    Document01,
    Req02,
    Req04,
}

/// What passes one and two of a line give: the words of pass one, the passes made and the two masks ("A visit to a line", steps 1 and 2).
pub(super) struct FirstTwo {
    words: [u64; 9],
    passes: u32,
    pub(super) flagged: u32,
    collisions: u32,
}

/// "A visit to a line", steps 1 and 2.
pub(super) fn first_two(catch_words: &[u64; 9], memory: &[u8], line: u32) -> FirstTwo {
    let complements = catch_words.map(|catch_word| !catch_word);

    // Step 1.
    let words = pass(true, catch_words, memory, line);
    let candidates: Vec<usize> = (0..9).filter(|&chip| words[chip] == catch_words[chip]).collect();
    let mut two = FirstTwo { words, passes: 1, flagged: 0, collisions: 0 };

    // Step 2.
    if !candidates.is_empty() {
        two.passes = 2;
        let second = pass(true, &complements, memory, line);
        for chip in candidates {
            if second[chip] == complements[chip] {
                two.flagged |= 1 << chip;
            } else {
                two.collisions |= 1 << chip;
            }
        }
    }
    two
}

/// What a visit gives: the nine words of an answered line, or 20 or 21 ("A visit to a line").
pub(super) struct Visit {
    pub(super) passes: u32,
    pub(super) flagged: u32,
    pub(super) collisions: u32,
    pub(super) words: Result<[u64; 9], u32>,
}

/// "A visit to a line", steps 1 to 5. It changes neither record nor memory.
fn look(by: Step5, record: &Record, memory: &[u8], line: u32) -> Visit {
    let FirstTwo { words, passes, flagged, collisions } = first_two(&record.catch_words, memory, line);
    let visit = |passes, words| Visit { passes, flagged, collisions, words };
    match flagged.count_ones() {
        // Step 3.
        0 if xor(&words) == 0 => visit(passes, Ok(words)),
        0 => visit(passes, Err(20)),
        // Step 4.
        1 => visit(passes, Ok(rebuilt(words, flagged.trailing_zeros() as usize))),
        // Step 5.
        _ => {
            let (more, words) = step_5(by, record, memory, line, flagged);
            visit(3 + more, words)
        }
    }
}

/// "A visit to a line", step 5: the line's words, or 21, and the passes made after pass three.
fn step_5(by: Step5, record: &Record, memory: &[u8], line: u32, flagged: u32) -> (u32, Result<[u64; 9], u32>) {
    let sent = pass(false, &record.catch_words, memory, line);
    let statuses = statuses(memory, line);
    let beyond: Vec<usize> = (0..9).filter(|&chip| flagged >> chip & 1 == 1 && statuses[chip] == Status::Beyond).collect();
    match beyond[..] {
        // "If just one flagged chip is beyond mending, its word is the xor of the other eight" (Req 02).
        [chip] if by >= Step5::Req02 => (0, Ok(rebuilt(sent, chip))),
        // "If two or more are, the visit is refused 21" (Req 02).
        [_, _, ..] if by >= Step5::Req02 => (0, Err(21)),
        // "The nine words sent must xor to zero."
        _ if xor(&sent) == 0 => (0, Ok(sent)),
        // "Before a 21 for words that don't xor to zero" the row is diagnosed (Req 04).
        _ if by >= Step5::Req04 => {
            let diagnosis = row::diagnose(record, memory, line, flagged);
            // The blamed chip's word "is then the xor of the other eight words of pass three. Nobody blamed means 21."
            (diagnosis.passes, diagnosis.blamed.map(|chip| rebuilt(sent, chip)).ok_or(21))
        }
        // "Else 21."
        _ => (0, Err(21)),
    }
}

/// "A visit to a line" with step 6: "Only an answered line is written back", and "only that task's total moves" (Req 01).
pub(super) fn visit(by: Step5, record: &mut Record, memory: &mut [u8], task: u32, line: u32) -> Visit {
    let visit = look(by, record, memory, line);
    let Ok(words) = visit.words else { return visit };
    for (chip, &word) in words.iter().enumerate() {
        if visit.flagged >> chip & 1 == 1 {
            lay(memory, line, chip, word);
        }
        if visit.collisions >> chip & 1 == 1 {
            record.catch_words[chip] = record.catch_words[chip].wrapping_add(Record::STEP);
            record.registers[chip] = record.registers[chip].wrapping_add(Record::STEP);
        }
    }
    // The eight, "each stopping at 4,294,967,295" (Req 01).
    let total = &mut record.totals[task as usize];
    *total = total.saturating_add(visit.flagged.count_ones());
    visit
}
