//! Random lists under the premise, made against the plain memory alone, so that one can run under any catch-words.
use lemtskavo_trials::arguments::Arguments;
use lemtskavo_trials::bad_row::BadRows;
use lemtskavo_trials::call::Call;
use lemtskavo_trials::model::code::{self, Cell};
use lemtskavo_trials::model::plain::{Plain, weight};
use lemtskavo_trials::patterns::{one_bit, random_bits, random_check, xor};
use lemtskavo_trials::random::Random;
use lemtskavo_trials::tally::Tally;
use lemtskavo_trials::words::{STEP, data_of, palette};

use crate::answers::{Answer, each_visit, on_plain, outside_premise};

pub(crate) struct Maker {
    pub(crate) random: Random,
    pub(crate) plain: Plain,
    /// Words for data and for catch-words.
    palette: [u64; 10],
    arguments: Arguments,
    /// Lines whose damage has been outside the premise since the last visit or write.
    strayed: Vec<bool>,
    bad_rows: BadRows,
}

impl Maker {
    pub(crate) fn new(mut random: Random, lines: usize) -> Maker {
        let palette = palette(&mut random);
        let arguments = Arguments::new(lines, 5);
        Maker { random, plain: Plain::boot(lines), palette, arguments, strayed: vec![false; lines], bad_rows: BadRows::new(6) }
    }

    /// Catch-words to boot with, of several kinds: free ones, those of cleared memory, and those of data.
    pub(crate) fn boot_catch_words(&mut self) -> [[u64; 9]; 5] {
        let Maker { random, palette, .. } = self;
        [
            random.words(),
            [0; 9],
            std::array::from_fn(|_| random.pick(palette)),
            std::array::from_fn(|_| random.pick(palette).wrapping_sub(STEP)),
            [!palette[2]; 9],
        ]
    }

    fn data(&mut self) -> Vec<u8> {
        let length = self.arguments.length(64, &mut self.random);
        if length != 64 || self.random.chance(20) {
            return self.random.bytes(length);
        }
        self.palette_line()
    }

    /// A line of words that catch-words are taken from too.
    pub(crate) fn palette_line(&mut self) -> Vec<u8> {
        let words: [u64; 8] = std::array::from_fn(|_| self.random.pick(&self.palette));
        data_of(&words)
    }

    /// A pattern with more than one bit, sometimes in the check byte alone.
    fn many_bits(&mut self) -> Cell {
        match self.random.below(6) {
            0 => [0xFF; 9],
            1 => self.random.array(),
            2 | 3 => random_check(&mut self.random),
            _ => {
                let bits = 2 + self.random.below(6);
                random_bits(&mut self.random, bits)
            }
        }
    }

    fn fault(&mut self) -> Call {
        let (line, chip) = (self.arguments.line(&mut self.random), self.arguments.chip(&mut self.random));
        let length = self.arguments.length(9, &mut self.random);
        if length != 9 || line as usize >= self.plain.lines.len() || chip > 8 {
            return Call::Fault { line, chip, pattern: self.random.bytes(length) };
        }
        let (chip, pattern) = self.damage(self.plain.lines[line as usize].patterns, chip as usize);
        Call::Fault { line, chip: chip as u32, pattern: pattern.to_vec() }
    }

    /// Damage that keeps near the premise: one chip at most with many bits, at times a step outside and back. It is for this chip, or for
    /// another that has many bits already.
    fn damage(&mut self, patterns: [Cell; 9], chip: usize) -> (usize, Cell) {
        let wide = patterns.iter().position(|pattern| weight(pattern) > 1);
        match self.random.below(20) {
            0..=8 => (chip, random_bits(&mut self.random, 1)),
            // Many bits where there are some already, else anywhere.
            9..=13 => (wide.unwrap_or(chip), self.many_bits()),
            // The chip's damage is taken back, or all but one bit of it.
            14..=15 => (chip, patterns[chip]),
            16 => (chip, xor(patterns[chip], one_bit(self.random.below(72)))),
            // Outside the premise: a second chip with many bits, or a codeword.
            17 => (chip, self.many_bits()),
            18 => (chip, xor(patterns[chip], code::codeword(self.random.pick(&self.palette)))),
            _ => (chip, [0; 9]),
        }
    }

    /// Takes back all damage of one chip that keeps a line outside the premise.
    fn way_back(&mut self) -> Option<Call> {
        let line = (0..self.strayed.len()).find(|line| self.strayed[*line] && !self.plain.lines[*line].premise())?;
        let patterns = self.plain.lines[line].patterns;
        let chip = (0..9).rfind(|chip| weight(&patterns[*chip]) > 1)?;
        Some(Call::Fault { line: line as u32, chip: chip as u32, pattern: patterns[chip].to_vec() })
    }

    fn renew(&mut self) -> Call {
        let moves = self.random.below(3) as u64;
        let catch_word = self.random.pick(&self.palette).wrapping_sub(STEP.wrapping_mul(moves));
        Call::Renew { chip: self.arguments.chip(&mut self.random), catch_word }
    }

    fn any(&mut self) -> Call {
        if let Some(call) = self.bad_rows.next(&self.arguments, &mut self.random) {
            return call;
        }
        match self.random.below(100) {
            0..=39 => self.fault(),
            40..=46 => self.way_back().unwrap_or(Call::Patrol { task: 0, first: 0, budget: 0 }),
            47..=72 => self.arguments.read(&mut self.random),
            73..=80 => self.arguments.patrol(&mut self.random),
            81..=90 => Call::Write { line: self.arguments.line(&mut self.random), data: self.data() },
            _ => self.renew(),
        }
    }

    /// A call under the premise, with the plain memory's answer.
    pub(crate) fn next(&mut self, tally: &mut Tally) -> (Call, Answer) {
        let call = self.any();
        self.kept(call, tally)
    }

    /// The call, or a write in its place if it would break the premise, with the plain memory's answer.
    pub(crate) fn kept(&mut self, mut call: Call, tally: &mut Tally) -> (Call, Answer) {
        if let Some(line) = outside_premise(&call, &self.plain) {
            let own = !self.plain.lines[line].premise();
            tally.case(if own {
                "call left out, its visit would break the premise"
            } else {
                "call left out, another chip would be blamed"
            });
            call = Call::Write { line: line as u32, data: self.random.bytes(64) };
        }
        let Maker { plain, strayed, .. } = self;
        each_visit(&call, plain, |plain, line| note_visit(plain, line, &mut strayed[line], tally));
        let answer = on_plain(&call, &mut self.plain);
        self.note(&call, &answer, tally);
        (call, answer)
    }

    /// Notes which lines are outside the premise.
    fn note(&mut self, call: &Call, answer: &Answer, tally: &mut Tally) {
        let outside = |line: u32| self.plain.lines.get(line as usize).is_some_and(|line| !line.premise());
        match call {
            // It visits no line, so it is under the premise all the same.
            Call::Read { line, .. } if *answer == Answer::Refused(31) && outside(*line) => {
                tally.case("read refused 31 of a line outside the premise");
            }
            Call::Fault { line, .. } if *answer == Answer::Accepted && outside(*line) => self.strayed[*line as usize] = true,
            Call::Write { line, .. } if *answer == Answer::Accepted => self.strayed[*line as usize] = false,
            _ => {}
        }
    }
}

/// Counts how near the premise's edge a visit is.
fn note_visit(plain: &Plain, line: usize, strayed: &mut bool, tally: &mut Tally) {
    let damage = &plain.lines[line];
    if damage.beyond_one_bit() == 1 && damage.damaged() > 1 {
        tally.case(if damage.one_wide_beyond_mending() {
            "visit with many bits in one chip, beyond mending, and one bit in others"
        } else {
            "visit with many bits in one chip, mended as one, and one bit in others"
        });
    }
    if damage.asks_row() {
        tally.case(if plain.answers(line) { "visit that diagnoses the row, answered" } else { "visit that diagnoses the row, refused" });
    }
    if std::mem::take(strayed) {
        tally.case("visit of a line that was outside the premise in between");
    }
}
