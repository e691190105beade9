//! Damage of the kinds that are timed.
use lemtskavo_trials::model::code::{self, Cell};
use lemtskavo_trials::random::Random;

/// Any word and its check byte: damage that the code inside a chip can't show.
pub(crate) fn codeword(random: &mut Random) -> Cell {
    code::codeword(random.word())
}

/// Damage to a chip that its code shows: a codeword with a check bit off.
pub(crate) fn not_codeword(random: &mut Random) -> Cell {
    let mut pattern = codeword(random);
    pattern[8] ^= 1 << random.below(8);
    pattern
}

/// Damage to a chip that its code shows and does not take for one bit: a codeword with two check bits off. The polynomial has an even
/// number of terms, so a syndrome has an even number of bits if the pattern has.
pub(crate) fn beyond_mending(random: &mut Random) -> Cell {
    let mut pattern = codeword(random);
    let bit = random.below(8);
    pattern[8] ^= 1 << bit | 1 << ((bit + 1 + random.below(7)) % 8);
    pattern
}
