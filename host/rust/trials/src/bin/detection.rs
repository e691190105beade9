//! Measures how often a chip's own code detects damage, beside table II of source document 000, columns CRC8-ATM.
//!
//! A pattern is xored into one chip of a written line, and the line is visited. The pattern is detected if the chip is flagged. A pattern
//! that is a codeword is not: the visit then flags no chip and is refused with 20.
//!
//! Positions are those of document 01: bit i of the word is 8 + i, bit j of the check is j. A pattern is its nine bytes, highest first.
//!
//! Random errors: exactly n of the 72 bits are inverted. The paper doesn't define bursts, so two readings are tried:
//! - ends set: of n bits in a row the first and the last are inverted, and those between are free. This is the usual definition of a burst.
//! - all set: n bits in a row are inverted. The paper's Hamming column, near 35/69 for 4 and 33/65 for 8 and 100% for the others, suggests
//!   this one: 69 and 65 are the places that there are.
//!
//! The rule: a measured rate has to agree with the paper's to half a unit of the last digit that the paper prints; a sampled one may be off
//! by three standard errors more. Where the paper prints 100%, no pattern may stay undetected. A line of the table that breaks the rule is
//! marked, and the program's exit status is then 1.
use std::process::ExitCode;

use lemtskavo::{DATA_BYTES, LINE_BYTES, Rank, Refusal, memory_bytes};
use lemtskavo_trials::patterns::cell_of;
use lemtskavo_trials::random::Random;

/// The bits of a chip in a line.
const BITS: u32 = 72;
/// Errors up to this number are tried in every combination. The 156,238,908 patterns of six bits would take longer than all other tests.
const EXHAUSTIVE: u32 = 5;
/// Patterns tried of each larger number.
const SAMPLES: u64 = 2_000_000;
/// Lines of the rank: so many patterns share a patrol.
const LINES: u32 = 1024;
/// The task that all visits name.
const TASK: u32 = 0;
const SEED: u64 = 20_160_618;

/// Table II, CRC8-ATM, random errors of 1 to 8 bits, in percent as printed. Every burst is 100 there.
const PAPER_RANDOM: [&str; 8] = ["100", "100", "100", "99.2", "100", "99.22", "100", "99.22"];
const PAPER_BURST: &str = "100";

/// What was counted over many patterns.
#[derive(Clone, Copy, Default)]
struct Count {
    tried: u64,
    detected: u64,
}

impl Count {
    fn percent(self) -> f64 {
        100.0 * self.detected as f64 / self.tried as f64
    }

    /// In percent. Only if every pattern was detected it has no digits after the point.
    fn rate(self) -> String {
        if self.detected == self.tried {
            return "100%".to_string();
        }
        format!("{:.3}%", self.percent())
    }

    /// Whether this is the rate that the paper prints, by the rule above.
    fn agrees(self, paper: &str, sampled: bool) -> bool {
        if paper == "100" {
            return self.detected == self.tried;
        }
        let percent: f64 = paper.parse().expect("a number");
        let digits = paper.split_once('.').map_or(0, |(_, digits)| digits.len());
        let half_unit = 0.5 * 0.1_f64.powi(digits as i32);
        let spread = if sampled { 3.0 * self.standard_error() } else { 0.0 };
        (self.percent() - percent).abs() <= half_unit + spread
    }

    /// In percentage points.
    fn standard_error(self) -> f64 {
        let rate = self.detected as f64 / self.tried as f64;
        100.0 * (rate * (1.0 - rate) / self.tried as f64).sqrt()
    }
}

/// A rank with random lines. Each line takes one pattern, then a patrol visits them all.
struct Bench<'m> {
    rank: Rank<'m>,
    lines: Vec<[u8; DATA_BYTES]>,
    /// The memory with no damage.
    sound: Vec<u8>,
    /// Lines that hold a pattern: those below.
    filled: u32,
    count: Count,
}

impl<'m> Bench<'m> {
    fn new(memory: &'m mut [u8], random: &mut Random) -> Bench<'m> {
        let mut rank = Rank::boot(memory, random.words()).expect("boot");
        let lines: Vec<[u8; DATA_BYTES]> = (0..LINES).map(|_| random.array()).collect();
        for (line, data) in (0..).zip(&lines) {
            rank.write(line, data).expect("write");
        }
        let sound = rank.memory().to_vec();
        Bench { rank, lines, sound, filled: 0, count: Count::default() }
    }

    /// Damages one chip of the next line. The chips take turns.
    fn take(&mut self, pattern: u128) {
        let line = self.filled;
        self.rank.fault(line, line % 9, &cell_of(pattern)).expect("fault");
        self.filled += 1;
        if self.filled == LINES {
            self.patrol();
        }
    }

    /// Visits the damaged lines. One chip is damaged in each, so each word rewritten is a pattern detected.
    fn patrol(&mut self) {
        let patrol = self.rank.patrol(TASK, 0, self.filled).expect("patrol");
        assert_eq!(patrol.visited, self.filled);
        assert_eq!(patrol.rewritten + patrol.refused, self.filled, "each line is repaired or refused");
        let undetected = if self.rank.memory() == self.sound { 0 } else { self.clear_undetected() };
        assert_eq!(patrol.refused, undetected, "the lines repaired are sound again, the others still damaged");
        self.count.tried += u64::from(self.filled);
        self.count.detected += u64::from(patrol.rewritten);
        self.filled = 0;
    }

    /// Writes the lines again that are not sound, and counts them. A read has to refuse them with 20.
    fn clear_undetected(&mut self) -> u32 {
        let mut undetected = 0;
        for (line, data) in (0..self.filled).zip(&self.lines) {
            let at = LINE_BYTES * line as usize;
            if self.rank.memory()[at..at + LINE_BYTES] != self.sound[at..at + LINE_BYTES] {
                let refused = self.rank.read(TASK, line).expect_err("a damaged line");
                assert_eq!((refused.refusal, refused.visit.flagged), (Refusal::Unlocated, 0));
                self.rank.write(line, data).expect("write");
                undetected += 1;
            }
        }
        undetected
    }

    /// What was counted since the last time.
    fn finish(&mut self) -> Count {
        if self.filled > 0 {
            self.patrol();
        }
        std::mem::take(&mut self.count)
    }
}

/// Every pattern of `errors` bits.
fn every_random(bench: &mut Bench<'_>, errors: u32) -> Count {
    let mut pattern: u128 = (1 << errors) - 1;
    while pattern >> BITS == 0 {
        bench.take(pattern);
        pattern = next_of_same_weight(pattern);
    }
    bench.finish()
}

/// The next number with as many bits set.
fn next_of_same_weight(number: u128) -> u128 {
    let lowest = number & number.wrapping_neg();
    let carried = number + lowest;
    carried | ((carried ^ number) >> (2 + lowest.trailing_zeros()))
}

/// A sample of the patterns of `errors` bits, each as likely as any other.
fn sampled_random(bench: &mut Bench<'_>, errors: u32, random: &mut Random) -> Count {
    for _ in 0..SAMPLES {
        let mut pattern: u128 = 0;
        while pattern.count_ones() < errors {
            pattern |= 1 << random.number(BITS);
        }
        bench.take(pattern);
    }
    bench.finish()
}

/// Every burst of `length` bits: ends set, those between free.
fn every_burst(bench: &mut Bench<'_>, length: u32) -> Count {
    let ends: u128 = 1 | 1 << (length - 1);
    for between in 0..1u128 << length.saturating_sub(2) {
        for place in 0..=BITS - length {
            bench.take((ends | between << 1) << place);
        }
    }
    bench.finish()
}

/// Every run of `length` bits, all set.
fn every_run(bench: &mut Bench<'_>, length: u32) -> Count {
    for place in 0..=BITS - length {
        bench.take(((1 << length) - 1) << place);
    }
    bench.finish()
}

/// The rates for one number of errors.
struct Row {
    errors: u32,
    sampled: bool,
    scattered: Count,
    burst: Count,
    run: Count,
}

impl Row {
    fn measure(errors: u32, bench: &mut Bench<'_>, random: &mut Random) -> Row {
        let sampled = errors > EXHAUSTIVE;
        let scattered = if sampled { sampled_random(bench, errors, random) } else { every_random(bench, errors) };
        Row { errors, sampled, scattered, burst: every_burst(bench, errors), run: every_run(bench, errors) }
    }

    fn paper(&self) -> &'static str {
        PAPER_RANDOM[self.errors as usize - 1]
    }

    fn agrees(&self) -> bool {
        let bursts_agree = self.burst.agrees(PAPER_BURST, false) && self.run.agrees(PAPER_BURST, false);
        bursts_agree && self.scattered.agrees(self.paper(), self.sampled)
    }

    fn print(&self) {
        let Row { errors, sampled, scattered, burst, run } = self;
        let how = if *sampled { "sampled" } else { "exhaustive" };
        let spread = if *sampled { format!("±{:.3}", scattered.standard_error()) } else { String::new() };
        let mark = if self.agrees() { "" } else { "  differs" };
        print!("{errors:2} |{:9}  {how:10} {:>8} {spread:6} {:>6}% |", scattered.tried, scattered.rate(), self.paper());
        print!("{:10}{:>7}{:11}{:>7}", burst.tried, burst.rate(), run.tried, run.rate());
        println!("{PAPER_BURST:>7}%{mark}");
    }
}

fn main() -> ExitCode {
    let mut random = Random::new(SEED);
    let mut memory = vec![0; memory_bytes(LINES as usize)];
    let mut bench = Bench::new(&mut memory, &mut random);
    println!("Detection rates of the code inside a chip, and those of source document 000, table II, CRC8-ATM");
    println!("Random: n of 72 bits. Burst: n bits in a row, either its ends set and the others free, or all set.");
    println!("Sampled rates are given with their standard error; seed {SEED}. All bursts are tried.");
    println!();
    println!("   |                    random                    |  burst, ends set   burst, all set   burst");
    println!(" n | patterns                  rate         paper |  patterns   rate   patterns   rate   paper");
    let mut all_agree = true;
    for errors in 1..=8 {
        let row = Row::measure(errors, &mut bench, &mut random);
        row.print();
        all_agree &= row.agrees();
    }
    println!();
    if !all_agree {
        println!("The marked rates are not the paper's.");
        return ExitCode::FAILURE;
    }
    println!("Every rate agrees with the paper's to the digits printed, a sampled one within three standard errors.");
    ExitCode::SUCCESS
}
