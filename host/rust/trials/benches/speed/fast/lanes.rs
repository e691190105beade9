//! Check bytes and syndromes of eight words at once.
use std::ops::{BitAnd, BitOr, BitXor, Shl, Shr};

use super::line::Line;

/// Two `u64` abreast: the compiler puts them in one register.
#[derive(Clone, Copy)]
struct Two(u64, u64);

impl BitXor for Two {
    type Output = Two;
    #[inline(always)]
    fn bitxor(self, other: Two) -> Two {
        Two(self.0 ^ other.0, self.1 ^ other.1)
    }
}

impl BitOr for Two {
    type Output = Two;
    #[inline(always)]
    fn bitor(self, other: Two) -> Two {
        Two(self.0 | other.0, self.1 | other.1)
    }
}

impl BitAnd<u64> for Two {
    type Output = Two;
    #[inline(always)]
    fn bitand(self, mask: u64) -> Two {
        Two(self.0 & mask, self.1 & mask)
    }
}

impl Shl<u32> for Two {
    type Output = Two;
    #[inline(always)]
    fn shl(self, bits: u32) -> Two {
        Two(self.0 << bits, self.1 << bits)
    }
}

impl Shr<u32> for Two {
    type Output = Two;
    #[inline(always)]
    fn shr(self, bits: u32) -> Two {
        Two(self.0 >> bits, self.1 >> bits)
    }
}

const BYTES: u64 = 0x00ff_00ff_00ff_00ff;
const HALF: u64 = 0x0000_ffff_0000_ffff;
const WORD: u64 = 0x0000_0000_ffff_ffff;

/// The syndromes of chips 0 to 7 in 16-bit lanes, even chips and odd chips apart. It reads the eight bytes that end with the check byte;
/// the word's first byte comes in by x^64 = x^4 + x + 1. A function of its own that stores its results side by side is what the compiler
/// turns into SSE2.
#[inline(never)]
pub(super) fn syndromes(line: &Line, lanes: &mut [u64; 2]) {
    let at = |k: usize| u64::from_le_bytes(*line[9 * k + 1..].first_chunk().unwrap());
    let byte = |k: usize| u64::from(line[9 * k]);
    let first = Two(byte(0) | byte(2) << 16 | byte(4) << 32 | byte(6) << 48, byte(1) | byte(3) << 16 | byte(5) << 32 | byte(7) << 48);
    let p = halves(Two(at(0), at(1)), Two(at(4), at(5)));
    let q = halves(Two(at(2), at(3)), Two(at(6), at(7)));
    let Two(even, odd) = eights(quarters(p, q) ^ first ^ first << 1 ^ first << 4);
    lanes[0] = even;
    lanes[1] = odd;
}

/// The check bytes of eight words that begin at the multiples of `APART`, in 16-bit lanes, even and odd words apart.
#[inline(never)]
pub(super) fn check_bytes<const APART: usize, const LENGTH: usize>(bytes: &[u8; LENGTH], lanes: &mut [u64; 2]) {
    let at = |k: usize| u64::from_le_bytes(*bytes[APART * k..].first_chunk().unwrap());
    let p = halves(Two(at(0), at(1)), Two(at(4), at(5)));
    let q = halves(Two(at(2), at(3)), Two(at(6), at(7)));
    let Two(even, odd) = checks(quarters(p, q));
    lanes[0] = even;
    lanes[1] = odd;
}

/// Each pair of bytes to ten bits in its lane: x^8 = x^2 + x + 1.
#[inline(always)]
fn pairs(word: Two) -> Two {
    let first = word & BYTES;
    first ^ first << 1 ^ first << 2 ^ (word >> 8 & BYTES)
}

/// Two words to fourteen bits in each lane: x^32 = x^4 + x^2 + x.
#[inline(always)]
fn halves(a: Two, b: Two) -> Two {
    let (a, b) = (pairs(a), pairs(b));
    let first = a & WORD | b << 32;
    let second = a >> 32 | b & !WORD;
    first << 1 ^ first << 2 ^ first << 4 ^ second
}

/// Four words to fourteen bits in each lane, one word a lane: x^16 = x^4 + x^2 + 1.
#[inline(always)]
fn quarters(p: Two, q: Two) -> Two {
    let first = eights(p & HALF | (q & HALF) << 16);
    let second = p >> 16 & HALF | q & !HALF;
    first ^ first << 2 ^ first << 4 ^ second
}

/// The check byte in each lane: the lane's remainder times x^8.
#[inline(always)]
fn checks(v: Two) -> Two {
    let (high, low) = (v >> 8 & BYTES, v & BYTES);
    eights(high ^ high << 2 ^ high << 4 ^ low ^ low << 1 ^ low << 2)
}

/// At most fourteen bits in each lane to eight.
#[inline(always)]
fn eights(v: Two) -> Two {
    let high = v >> 8 & BYTES;
    v & BYTES ^ high ^ high << 1 ^ high << 2
}

/// The check byte of one word.
pub(super) fn check_byte(word: u64) -> u8 {
    checks(quarters(halves(Two(word, 0), Two(0, 0)), Two(0, 0))).0 as u8
}
