//! Arguments of calls: numbers and lengths at which a call could go wrong, and random ones.
use crate::call::Call;
use crate::random::Random;

/// Line numbers at which a narrow or wrapped number would go wrong. Some equal a small line modulo 4,096 or 65,536.
pub const FAR_LINES: [u32; 19] = [
    4_095,
    4_096,
    4_097,
    8_192,
    65_535,
    65_536,
    65_537,
    65_540,
    131_072,
    0x0010_0000,
    0x0100_0001,
    0x1000_0000,
    0x7FFF_FFFF,
    0x8000_0000,
    0x8000_0001,
    0xFFFF_0000,
    0xFFFF_0001,
    0xFFFF_FFFE,
    0xFFFF_FFFF,
];

/// Chip numbers that are not below 9; most equal a chip modulo a power of two.
pub const FAR_CHIPS: [u32; 14] = [9, 10, 15, 16, 17, 31, 32, 255, 256, 264, 4_096, 65_536, 0x8000_0000, 0xFFFF_FFFF];

/// Task numbers that are not below 8. Most equal a task modulo a power of two, and some are below 8 if they are taken as signed.
pub const FAR_TASKS: [u32; 15] = [8, 9, 10, 15, 16, 31, 64, 255, 256, 256 + 3, 65_536 + 5, 1 << 31, (1 << 31) + 6, u32::MAX - 7, u32::MAX];

/// Lengths over 130; some equal 64 or 9 modulo 256, 4,096 or 65,536.
pub const LARGE_LENGTHS: [usize; 9] = [255, 256, 265, 320, 4_105, 4_160, 65_536, 65_545, 65_600];

/// Ranks with more lines are wide: their line numbers need more than 12 bits.
const WIDE: u32 = 4_096;

/// Draws the arguments of calls on a rank.
#[derive(Clone, Debug)]
pub struct Arguments {
    pub lines: u32,
    /// The tasks that are named.
    pub tasks: Vec<u32>,
    /// Of 100 arguments of a kind so many are wrong, or nearly so.
    pub wrong: usize,
}

impl Arguments {
    /// With all eight tasks, and so many of 100 wrong.
    pub fn new(lines: usize, wrong: usize) -> Arguments {
        Arguments { lines: lines as u32, tasks: (0..8).collect(), wrong }
    }

    pub fn line(&self, random: &mut Random) -> u32 {
        if random.chance(self.wrong) { self.wrong_line(random) } else { self.right_line(random) }
    }

    pub(crate) fn right_line(&self, random: &mut Random) -> u32 {
        match random.below(100) {
            // In a wide rank most calls meet on few lines.
            0..=79 if self.lines > WIDE => random.pick(&[0, 1, 4_095, 4_096, self.lines - 2]),
            0..=79 if self.lines > 128 => random.pick(&[0, 1, 127, 128, self.lines - 2]),
            0..=85 => random.number(self.lines),
            _ => self.lines - 1,
        }
    }

    fn wrong_line(&self, random: &mut Random) -> u32 {
        match random.below(12) {
            0..=2 => self.lines,
            3 | 4 => self.lines + 1,
            5..=9 => random.pick(&FAR_LINES),
            _ => random.word() as u32,
        }
    }

    pub fn task(&self, random: &mut Random) -> u32 {
        let tasks = if random.chance(self.wrong) { &FAR_TASKS[..] } else { &self.tasks };
        wild(tasks, random)
    }

    pub fn chip(&self, random: &mut Random) -> u32 {
        let chips = if random.chance(self.wrong) { &FAR_CHIPS[..] } else { &[0, 1, 2, 3, 4, 5, 6, 7, 8] };
        wild(chips, random)
    }

    pub fn length(&self, right: usize, random: &mut Random) -> usize {
        if !random.chance(self.wrong) {
            return right;
        }
        match random.below(24) {
            0 => random.pick(&LARGE_LENGTHS),
            _ => random.below(131),
        }
    }

    /// None, few, or all that there are.
    pub fn budget(&self, random: &mut Random) -> u32 {
        match random.below(10) {
            0 => 0,
            1 => u32::MAX,
            2 => random.word() as u32,
            _ => random.number(self.lines.min(8) + 2),
        }
    }

    pub fn read(&self, random: &mut Random) -> Call {
        let length = self.length(64, random);
        Call::Read { task: self.task(random), line: self.line(random), buffer: random.bytes(length) }
    }

    pub fn patrol(&self, random: &mut Random) -> Call {
        Call::Patrol { task: self.task(random), first: self.line(random), budget: self.budget(random) }
    }
}

/// A chip that is not this one.
pub fn other_chip(chip: u32, random: &mut Random) -> u32 {
    (chip + 1 + random.number(8)) % 9
}

/// One of these numbers, or one in 100 times any number at all.
fn wild(numbers: &[u32], random: &mut Random) -> u32 {
    if random.chance(1) { random.word() as u32 } else { random.pick(numbers) }
}
