//! Words for data and for catch-words, chosen so that they often meet.
use crate::model::device::Record;
use crate::random::Random;

/// By how much a colliding chip's catch-word grows.
pub const STEP: u64 = Record::STEP;

/// Words that data and catch-words are both taken from: some are complements of others, or meet them after one step or two.
pub fn palette(random: &mut Random) -> [u64; 10] {
    let word = random.word();
    let steps = |count: u64| STEP.wrapping_mul(count);
    [
        0,
        !0,
        word,
        !word,
        word.wrapping_add(steps(1)),
        word.wrapping_add(steps(2)),
        word.wrapping_sub(STEP),
        STEP,
        STEP.wrapping_neg(),
        random.word(),
    ]
}

/// The bytes of words, highest byte first.
pub fn data_of(words: &[u64]) -> Vec<u8> {
    words.iter().flat_map(|word| word.to_be_bytes()).collect()
}

/// The xor of words. The model has its own.
pub fn xor(words: &[u64]) -> u64 {
    words.iter().fold(0, |sum, word| sum ^ word)
}
