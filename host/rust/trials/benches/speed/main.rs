//! How fast the proved library is: beside the fastest safe Rust that does the same work, and beside a copy of the bytes.
//!
//! First both sides must agree on random calls. Then each piece of work is timed in rounds that alternate library, safe Rust and copy, each
//! on its own memory of the same content; the medians of the rounds are printed. With `--agree` it stops before the timing.
mod agree;
mod fast;
mod patterns;
mod sides;
mod timing;

use std::ops::Range;

use lemtskavo::memory_bytes;
use lemtskavo_trials::arguments::other_chip;
use lemtskavo_trials::model::code::{Cell, Status};
use lemtskavo_trials::patterns::{random_bits, random_with};
use lemtskavo_trials::random::Random;

use agree::agree;
use patterns::{beyond_mending, not_codeword};
use sides::{Fast, Library, Side};
use timing::{Booted, bytes_of, timed, timed_copy};

const ROUNDS: u32 = 401;
/// The lines of one timing: few, so that most timings run without being interrupted. Rounds take the parts of a rank in turn.
const PART: u32 = 4_096;
/// The lines of a row.
const ROW: u32 = 128;
/// The task of all timed visits.
const TASK: u32 = 0;
/// Position 71 of a chip's nine bytes, bit 63 of its word. The library finds it in the last of its nine steps.
const LAST_BIT: Cell = [0x80, 0, 0, 0, 0, 0, 0, 0, 0];

fn main() {
    agree(200_000);
    if std::env::args().any(|argument| argument == "--agree") {
        return;
    }
    print_machine();
    println!("Nanoseconds, medians of {ROUNDS} rounds of {PART} lines, visited in order.\n");
    println!("| {:<35} | {:>6} | {:>7} | {:>9} | {:>6} | {:>17} |", "", "N", "library", "safe Rust", "copy", "library/safe Rust");
    println!("|{:-<37}|{:->7}:|{:->8}:|{:->10}:|{:->7}:|{:->18}:|", "", "", "", "", "", "");
    for lines in [4_096, 65_536] {
        let mut bench = Bench::new(lines);
        for work in WORKS {
            bench.measure(work);
        }
    }
}

#[derive(Clone, Copy, PartialEq)]
enum Work {
    Read,
    Write,
    Patrol,
    Rebuild,
    Mend,
    MendLast,
    MendAndRebuild,
    Diagnose,
    Boot,
    Refused,
}

const WORKS: [Work; 10] = [
    Work::Read,
    Work::Write,
    Work::Patrol,
    Work::Rebuild,
    Work::Mend,
    Work::MendLast,
    Work::MendAndRebuild,
    Work::Diagnose,
    Work::Boot,
    Work::Refused,
];

impl Work {
    fn name(self) -> &'static str {
        match self {
            Work::Read => "read, clean line",
            Work::Write => "write",
            Work::Patrol => "patrol, per clean line",
            Work::Rebuild => "read that rebuilds one chip",
            Work::Mend => "read that mends a bit in two chips",
            Work::MendLast => "read that mends bit 63 in two chips",
            Work::MendAndRebuild => "read that rebuilds one of two chips",
            Work::Diagnose => "read that diagnoses a clean row, 21",
            Work::Boot => "boot, per line",
            Work::Refused => "refused call (renew of chip 9)",
        }
    }
}

struct Bench {
    lines: u32,
    data: Vec<[u8; 64]>,
    library: Booted,
    fast: Booted,
    plain: Vec<u8>,
    random: Random,
}

impl Bench {
    fn new(lines: u32) -> Bench {
        let mut random = Random::new(0x2545_f491_4f6c_dd1d);
        let catch_words = random.words();
        let data = (0..lines).map(|_| random.array()).collect();
        let length = memory_bytes(lines as usize);
        let library = booted::<Library>(length, &catch_words);
        let fast = booted::<Fast>(length, &catch_words);
        Bench { lines, data, library, fast, plain: vec![0; length], random }
    }

    /// Times one piece of work in rounds and prints its row.
    fn measure(&mut self, work: Work) {
        let (mut library, mut fast, mut copy, mut ratios) = (vec![], vec![], vec![], vec![]);
        fill::<Library>(&mut self.library, &self.data);
        fill::<Fast>(&mut self.fast, &self.data);
        self.plain.copy_from_slice(&self.fast.memory);
        for round in 0..ROUNDS {
            let part = round * PART % self.lines..round * PART % self.lines + PART;
            let damage = self.damage(work, part.clone());
            lay_faults::<Library>(&mut self.library, &damage);
            lay_faults::<Fast>(&mut self.fast, &damage);
            let a = timed::<Library>(work, &mut self.library, &self.data, part.clone());
            let b = timed::<Fast>(work, &mut self.fast, &self.data, part.clone());
            let bytes = bytes_of(&part);
            assert!(self.library.rank == self.fast.rank && self.library.memory[bytes.clone()] == self.fast.memory[bytes]);
            library.push(a);
            fast.push(b);
            copy.push(timed_copy(work, &mut self.plain, part));
            ratios.push(a / b);
            if work == Work::Diagnose {
                // A refused line keeps its damage, which the same again takes back.
                lay_faults::<Library>(&mut self.library, &damage);
                lay_faults::<Fast>(&mut self.fast, &damage);
            }
        }
        let (library, fast, copy, ratio) = (median(library), median(fast), median(copy), median(ratios));
        println!("| {:<35} | {:>6} | {library:>7.1} | {fast:>9.1} | {copy:>6.1} | {ratio:>17.2} |", work.name(), self.lines);
    }

    /// The faults of one round, the same for both sides: every line of the part has them, or the first of each row.
    fn damage(&mut self, work: Work, part: Range<u32>) -> Vec<Damage> {
        let mut list = vec![];
        for line in part {
            let chip = self.random.number(9);
            match work {
                Work::Diagnose if line % ROW != 0 => {}
                Work::Rebuild => list.push(Damage { line, chip, pattern: not_codeword(&mut self.random) }),
                Work::Mend | Work::MendLast | Work::MendAndRebuild | Work::Diagnose => {
                    let other = other_chip(chip, &mut self.random);
                    let random = &mut self.random;
                    let [first, second] = match work {
                        Work::Mend => [random_bits(random, 1), random_bits(random, 1)],
                        Work::MendLast => [LAST_BIT; 2],
                        Work::Diagnose => [random_with(Status::Mended, random), random_bits(random, 1)],
                        _ => [beyond_mending(random), random_bits(random, 1)],
                    };
                    list.push(Damage { line, chip, pattern: first });
                    list.push(Damage { line, chip: other, pattern: second });
                }
                _ => return list,
            }
        }
        list
    }
}

struct Damage {
    line: u32,
    chip: u32,
    pattern: Cell,
}

fn booted<S: Side>(length: usize, catch_words: &[u64; 9]) -> Booted {
    let mut memory = vec![0; length];
    let rank = S::boot(&mut memory, catch_words).rank;
    Booted { rank, memory }
}

fn fill<S: Side>(booted: &mut Booted, data: &[[u8; 64]]) {
    for (line, bytes) in data.iter().enumerate() {
        booted.rank = S::write(booted.rank, &mut booted.memory, line as u32, bytes).rank;
    }
}

fn lay_faults<S: Side>(booted: &mut Booted, damage: &[Damage]) {
    for fault in damage {
        booted.rank = S::fault(booted.rank, &mut booted.memory, fault.line, fault.chip, &fault.pattern).rank;
    }
}

fn median(mut values: Vec<f64>) -> f64 {
    values.sort_by(f64::total_cmp);
    values[values.len() / 2]
}

fn print_machine() {
    let info = std::fs::read_to_string("/proc/cpuinfo").unwrap_or_default();
    let name = info.lines().find_map(|line| line.strip_prefix("model name")?.split_once(": ")).map(|(_, name)| name);
    println!("Processor: {}.", name.unwrap_or("unknown"));
    if let Ok(output) = std::process::Command::new("rustc").arg("--version").output() {
        println!("Compiler: {}.", String::from_utf8_lossy(&output.stdout).trim());
    }
}
