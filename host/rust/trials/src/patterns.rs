//! Patterns of damage to one chip.
use crate::model::code::{self, Cell, Status};
use crate::random::Random;

/// Two bits of the word: beyond mending.
pub const WORD_300: Cell = [0, 0, 0, 0, 0, 0, 3, 0, 0];
/// Two bits of the check byte: beyond mending, with the word whole.
pub const CHECK_03: Cell = [0, 0, 0, 0, 0, 0, 0, 0, 3];
/// The syndrome of the lowest bit of the word: the chip inverts that bit, which was right.
pub const CHECK_07: Cell = [0, 0, 0, 0, 0, 0, 0, 0, 7];

/// The nine bytes whose bits, by their positions in the code, are these.
pub fn cell_of(bits: u128) -> Cell {
    *bits.to_be_bytes().last_chunk().unwrap()
}

/// One bit, by its position in the code.
pub fn one_bit(position: usize) -> Cell {
    cell_of(1 << position)
}

pub fn xor(one: Cell, other: Cell) -> Cell {
    std::array::from_fn(|place| one[place] ^ other[place])
}

/// As many bits inverted one after another. The same one may come twice.
pub fn random_bits(random: &mut Random, bits: usize) -> Cell {
    (0..bits).fold([0; 9], |pattern, _| xor(pattern, one_bit(random.below(72))))
}

/// Any pattern whose chip tells this.
pub fn random_with(status: Status, random: &mut Random) -> Cell {
    loop {
        let pattern = random.array();
        if code::status(&pattern) == status {
            return pattern;
        }
    }
}

/// Bits of the check byte alone.
pub fn random_check(random: &mut Random) -> Cell {
    code::cell(0, random.byte())
}

/// One bit, few bits, any bytes, or a codeword: the code's polynomial moved up is one.
pub fn random_damage(random: &mut Random) -> Cell {
    match random.below(10) {
        0..=6 => random_bits(random, 1),
        7 => random_bits(random, 3),
        8 => random.array(),
        _ => cell_of(0x107 << random.below(64)),
    }
}

/// The pattern that makes a chip hold a word in place of what it holds, with the right check byte or another.
pub fn random_leading(held: Cell, word: u64, random: &mut Random) -> Cell {
    let mut wanted = code::codeword(word);
    if random.chance(40) {
        wanted[8] ^= 1 + random.below(255) as u8;
    }
    xor(wanted, held)
}
