//! Document 01, "The code inside a chip", and the status of document 02's Req 02.

/// x^8 + x^2 + x + 1, bit i for x^i.
const POLYNOMIAL: u128 = 0b1_0000_0111;

/// "255 standing for no position".
pub const NO_POSITION: u8 = 255;

/// What one chip holds of a line: a word, highest byte first, then a check byte ("The rank").
pub type Cell = [u8; 9];

/// The word of nine bytes ("The rank").
pub fn word(cell: &Cell) -> u64 {
    cell[..8].iter().fold(0, |word, &byte| word << 8 | u64::from(byte))
}

/// The nine bytes of a word and a check byte ("The rank").
pub fn cell(word: u64, check: u8) -> Cell {
    let mut cell = [check; 9];
    cell[..8].copy_from_slice(&word.to_be_bytes());
    cell
}

/// Bit i of the word is position 8 + i, bit j of the check is position j ("The code inside a chip").
fn bits(cell: &Cell) -> u128 {
    u128::from(word(cell)) << 8 | u128::from(cell[8])
}

/// The remainder of 72 bits by long division, highest position first ("The code inside a chip").
const fn remainder(mut bits: u128) -> u8 {
    let mut position = 72;
    while position > 8 {
        position -= 1;
        if bits >> position & 1 == 1 {
            bits ^= POLYNOMIAL << (position - 8);
        }
    }
    bits as u8
}

/// "The syndrome is the remainder modulo that polynomial."
pub fn syndrome(cell: &Cell) -> u8 {
    remainder(bits(cell))
}

/// "Syndrome zero means a codeword."
pub fn is_codeword(cell: &Cell) -> bool {
    syndrome(cell) == 0
}

/// "The check byte is the one that makes it so": the remainder over a check of 0 cancels itself.
pub fn check(word: u64) -> u8 {
    syndrome(&cell(word, 0))
}

/// The nine bytes that hold a word as a codeword.
pub fn codeword(word: u64) -> Cell {
    cell(word, check(word))
}

/// The 256 entries: each position stands at its own syndrome ("The code inside a chip").
const POSITIONS: [u8; 256] = {
    let mut positions = [NO_POSITION; 256];
    let mut position = 0;
    while position < 72 {
        positions[remainder(1 << position) as usize] = position;
        position += 1;
    }
    positions
};

/// "The position is looked up by syndrome."
pub fn position(syndrome: u8) -> u8 {
    POSITIONS[usize::from(syndrome)]
}

/// M(e), "the word of nine bytes e after mending".
pub fn mended(cell: &Cell) -> u64 {
    let position = position(syndrome(cell));
    if position == NO_POSITION {
        return word(cell);
    }
    ((bits(cell) ^ 1 << position) >> 8) as u64
}

/// What a chip tells of a word sent with Enable clear: "whether it was sound, mended, or beyond mending" (Req 02).
#[derive(Clone, Copy, Debug, PartialEq, Eq)]
pub enum Status {
    Sound,
    Mended,
    Beyond,
}

/// The status of nine bytes. The three words are document 02's, and the ranges are document 01's: a codeword, a bit that was inverted ("one
/// position from 0 to 71"), or "no position".
pub fn status(cell: &Cell) -> Status {
    let syndrome = syndrome(cell);
    match position(syndrome) {
        _ if syndrome == 0 => Status::Sound,
        0..=71 => Status::Mended,
        _ => Status::Beyond,
    }
}
