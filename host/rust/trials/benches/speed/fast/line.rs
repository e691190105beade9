//! One line of the memory: its words, the test for a clean line, the visit to one that is not, and the repair after its row was diagnosed.
use lemtskavo::LINE_BYTES;

use super::lanes::{check_byte, check_bytes, syndromes};

pub(super) type Line = [u8; LINE_BYTES];

#[inline(always)]
pub(super) fn line_of(memory: &mut [u8], line: u32) -> &mut Line {
    memory[LINE_BYTES * line as usize..].first_chunk_mut().unwrap()
}

/// A chip's word as it stands in the memory.
#[inline(always)]
fn word(line: &Line, chip: usize) -> u64 {
    u64::from_le_bytes(*line[9 * chip..].first_chunk().unwrap())
}

#[inline(always)]
fn set_word(line: &mut Line, chip: usize, word: u64) {
    line[9 * chip..9 * chip + 8].copy_from_slice(&word.to_le_bytes());
}

/// The xor of the nine words.
#[inline(always)]
pub(super) fn words_xor(line: &Line) -> u64 {
    (0..9).fold(0, |sum, k| sum ^ word(line, k))
}

/// Whether a chip's word equals its catch-word.
#[inline(always)]
fn equals_catch_word(line: &Line, catch_words: &[u64; 9], chip: usize) -> bool {
    word(line, chip).swap_bytes() == catch_words[chip]
}

/// What the test for a clean line has worked out: the xor of the nine words, and the syndromes of chips 0 to 7 if it came to them.
pub(super) struct Scanned {
    pub(super) sum: u64,
    pub(super) syndromes: Option<[u64; 2]>,
}

/// Whether a line whose nine words xor to zero is clean: nine codewords, none a catch-word. Chip 8 holds a codeword by linearity.
#[inline(never)]
pub(super) fn rest_is_clean(line: &Line, catch_words: &[u64; 9], scanned: &mut Scanned) -> bool {
    for k in 0..9 {
        if equals_catch_word(line, catch_words, k) {
            return false;
        }
    }
    let held = |k: usize| u64::from(line[9 * k + 8]);
    let even = held(0) | held(2) << 16 | held(4) << 32 | held(6) << 48;
    let odd = held(1) | held(3) << 16 | held(5) << 32 | held(7) << 48;
    let four = even ^ odd;
    let two = four ^ four >> 32;
    if (two ^ two >> 16) as u8 != line[80] {
        return false;
    }
    let mut asked = [0; 2];
    check_bytes::<9, LINE_BYTES>(line, &mut asked);
    if asked == [even, odd] {
        return true;
    }
    scanned.syndromes = Some([asked[0] ^ even, asked[1] ^ odd]);
    false
}

#[inline(always)]
pub(super) fn take(line: &Line, buffer: &mut [u8; 64]) {
    for k in 0..8 {
        buffer[8 * k..8 * k + 8].copy_from_slice(&line[9 * k..9 * k + 8]);
    }
}

#[inline(always)]
pub(super) fn lay(line: &mut Line, data: &[u8; 64]) {
    let mut lanes = [0; 2];
    check_bytes::<8, 64>(data, &mut lanes);
    let asked = lanes[0] | lanes[1] << 8;
    let mut sum = 0;
    for k in 0..8 {
        let word = u64::from_le_bytes(*data[8 * k..].first_chunk().unwrap());
        set_word(line, k, word);
        line[9 * k + 8] = (asked >> (8 * k)) as u8;
        sum ^= word;
    }
    set_word(line, 8, sum);
    line[80] = bytes_xor(asked);
}

fn bytes_xor(bytes: u64) -> u8 {
    let bytes = bytes ^ bytes >> 32;
    let bytes = bytes ^ bytes >> 16;
    (bytes ^ bytes >> 8) as u8
}

/// What a visit went through. Undecided: it is refused, unless the row blames a chip.
#[derive(Clone, Copy)]
pub(super) struct Visit {
    pub(super) undecided: bool,
    pub(super) refusal: u32,
    pub(super) passes: u32,
    pub(super) flagged: u32,
    pub(super) collisions: u32,
}

/// The syndromes of the nine chips: those of chips 0 to 7 in the bytes of a number, and that of chip 8.
#[derive(Clone, Copy)]
struct Syndromes {
    eight: u64,
    last: u8,
}

impl Syndromes {
    /// From those of chips 0 to 7 in lanes, and the check byte of the xor of the nine words.
    #[inline(always)]
    fn new(line: &Line, lanes: [u64; 2], sum_asks: u8) -> Syndromes {
        let eight = lanes[0] | lanes[1] << 8;
        // The syndromes of all nine xor to that of the sums.
        let checks_xor = (0..9).fold(0, |sum, k| sum ^ line[9 * k + 8]);
        Syndromes { eight, last: bytes_xor(eight) ^ sum_asks ^ checks_xor }
    }

    #[inline(always)]
    fn of_chip(self, chip: usize) -> u8 {
        if chip == 8 { self.last } else { (self.eight >> (8 * chip)) as u8 }
    }

    #[inline(always)]
    fn flagged(self) -> u32 {
        nonzero_bytes(self.eight) | u32::from(self.last != 0) << 8
    }
}

#[inline(always)]
fn lanes_of(line: &Line) -> [u64; 2] {
    let mut lanes = [0; 2];
    syndromes(line, &mut lanes);
    lanes
}

/// The chips that hold no codeword: in most lines none, and the mask is then not put together.
#[inline(always)]
pub(super) fn flagged_chips(line: &Line) -> u32 {
    let lanes = lanes_of(line);
    // Chip 8's by itself, since the xor of the nine words is not at hand.
    let last = check_byte(word(line, 8)) ^ line[80];
    if lanes == [0; 2] && last == 0 {
        return 0;
    }
    Syndromes { eight: lanes[0] | lanes[1] << 8, last }.flagged()
}

/// What mending makes of the flagged chips: the change to each word, what is left of the xor of the nine words, the check byte of that, and
/// the chips to be rebuilt from the others. A chip beyond mending sends its word as it is.
struct Mending {
    changes: [u64; 9],
    left: u64,
    left_asks: u8,
    rebuilt: u32,
}

impl Mending {
    #[inline(always)]
    fn new(flagged: u32, syndromes: Syndromes, sum: u64, sum_asks: u8) -> Mending {
        let mut mending = Mending { changes: [0; 9], left: sum, left_asks: sum_asks, rebuilt: 0 };
        for chip in chips(flagged) {
            let entry = MENDING[syndromes.of_chip(chip) as usize];
            let is_beyond = entry == BEYOND;
            mending.rebuilt |= u32::from(is_beyond) << chip;
            mending.changes[chip] = if is_beyond { 0 } else { entry };
            mending.take(chip, syndromes);
        }
        mending
    }

    /// Takes a chip's change into what is left, or out of it.
    #[inline(always)]
    fn take(&mut self, chip: usize, syndromes: Syndromes) {
        self.left ^= self.changes[chip];
        self.left_asks ^= if self.changes[chip] == 0 { 0 } else { syndromes.of_chip(chip) };
    }

    /// Writes the flagged chips back.
    #[inline(always)]
    fn write(&self, line: &mut Line, flagged: u32, syndromes: Syndromes) {
        for chip in chips(flagged & !self.rebuilt) {
            let change = self.changes[chip];
            set_word(line, chip, word(line, chip) ^ change);
            // With a bit of the word inverted the check byte is right; otherwise it is what makes the syndrome zero.
            line[9 * chip + 8] ^= if change == 0 { syndromes.of_chip(chip) } else { 0 };
        }
        if self.rebuilt != 0 {
            rebuild(line, self.rebuilt.trailing_zeros() as usize, syndromes, self.left, self.left_asks);
        }
    }
}

/// Rebuilds a chip by the xor of the nine words and the check byte of that xor.
#[inline(always)]
fn rebuild(line: &mut Line, chip: usize, syndromes: Syndromes, sum: u64, sum_asks: u8) {
    set_word(line, chip, word(line, chip) ^ sum);
    line[9 * chip + 8] ^= syndromes.of_chip(chip) ^ sum_asks;
}

/// A visit to a line that is not clean, by its own bytes. An answered line is repaired.
#[inline(never)]
pub(super) fn visit(line: &mut Line, catch_words: &[u64; 9], scanned: Scanned) -> Visit {
    let sum = scanned.sum;
    let sum_asks = check_byte(sum);
    let lanes = scanned.syndromes.unwrap_or_else(|| lanes_of(line));
    let syndromes = Syndromes::new(line, lanes, sum_asks);

    let flagged = syndromes.flagged();
    let mut equal = 0;
    // Most lines have no such word, and the mask is then not put together.
    if (0..9).any(|k| equals_catch_word(line, catch_words, k)) {
        for k in 0..9 {
            equal |= u32::from(equals_catch_word(line, catch_words, k)) << k;
        }
    }
    let collisions = equal & !flagged;
    let report = |refusal, passes| Visit { undecided: false, refusal, passes, flagged, collisions };

    if flagged == 0 {
        let passes = if collisions == 0 { 1 } else { 2 };
        return report(if sum == 0 { 0 } else { 20 }, passes);
    }
    if flagged & (flagged - 1) == 0 {
        rebuild(line, flagged.trailing_zeros() as usize, syndromes, sum, sum_asks);
        return report(0, 2);
    }
    let mending = Mending::new(flagged, syndromes, sum, sum_asks);
    if mending.rebuilt & mending.rebuilt.wrapping_sub(1) != 0 {
        return report(21, 3);
    }
    if mending.rebuilt == 0 && mending.left != 0 {
        return Visit { undecided: true, ..report(21, 3) };
    }
    mending.write(line, flagged, syndromes);
    report(0, 3)
}

/// Repairs a line that was undecided: one chip is blamed, and the other flagged ones are mended.
#[inline(never)]
pub(super) fn repair(line: &mut Line, flagged: u32, blamed: u32) {
    let sum = words_xor(line);
    let sum_asks = check_byte(sum);
    let syndromes = Syndromes::new(line, lanes_of(line), sum_asks);
    let mut mending = Mending::new(flagged, syndromes, sum, sum_asks);
    mending.take(blamed.trailing_zeros() as usize, syndromes);
    mending.rebuilt = blamed;
    mending.write(line, flagged, syndromes);
}

/// The chips of a mask, upwards.
#[inline(always)]
pub(super) fn chips(mask: u32) -> impl Iterator<Item = usize> {
    let mut rest = mask;
    std::iter::from_fn(move || {
        if rest == 0 {
            return None;
        }
        let chip = rest.trailing_zeros() as usize;
        rest &= rest - 1;
        Some(chip)
    })
}

/// Bit K set where byte K is not zero.
#[inline(always)]
fn nonzero_bytes(bytes: u64) -> u32 {
    const LOW: u64 = 0x7f7f_7f7f_7f7f_7f7f;
    let high = (((bytes & LOW) + LOW) | bytes) & !LOW;
    // The eight bits meet in the top byte; no two products overlap.
    (high >> 7).wrapping_mul(0x0102_0408_1020_4080).wrapping_shr(56) as u32
}

/// By syndrome: the change to the word that mending makes, zero where it makes none, or `BEYOND`.
static MENDING: [u64; 256] = mending();

/// The entry of a syndrome that no position has. Mending inverts one bit, so this is no change that it makes.
const BEYOND: u64 = u64::MAX;

const fn mending() -> [u64; 256] {
    let mut changes = [BEYOND; 256];
    changes[0] = 0;
    let mut syndrome: usize = 1;
    let mut position = 0;
    while position < 72 {
        // The first eight positions are in the check byte.
        changes[syndrome] = if position < 8 { 0 } else { (1u64 << (position - 8)).swap_bytes() };
        syndrome <<= 1;
        if syndrome > 255 {
            syndrome ^= 0x107;
        }
        position += 1;
    }
    changes
}
