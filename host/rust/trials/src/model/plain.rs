//! Document 01, "Plain memory": it knows neither record nor chips, and no catch-words. Of a task it only sees whether
//! there is one of that number (document 02, Req 01). Of the chips' status it knows what its patterns show (Req 02), and of a row what the
//! patterns of its other lines show (Req 04).
use super::code::{self, Cell, Status};

/// What it keeps for each line: 64 bytes and nine patterns, "all zero after boot".
#[derive(Clone, Debug)]
pub struct Line {
    pub bytes: [u8; 64],
    pub patterns: [Cell; 9],
}

#[derive(Clone, Debug)]
pub struct Plain {
    pub lines: Vec<Line>,
}

/// How many bits of a pattern are set.
pub fn weight(pattern: &Cell) -> u32 {
    pattern.iter().map(|byte| byte.count_ones()).sum()
}

impl Line {
    /// How many chips have a pattern that is not zero.
    pub fn damaged(&self) -> usize {
        self.patterns.iter().filter(|pattern| weight(pattern) > 0).count()
    }

    /// How many chips have a pattern with more than one bit set.
    pub fn beyond_one_bit(&self) -> usize {
        self.patterns.iter().filter(|pattern| weight(pattern) > 1).count()
    }

    /// Document 01's "premise at each visit": "no pattern other than zero is a codeword, and at most one has more than one bit set".
    pub fn premise(&self) -> bool {
        let codewords = self.patterns.iter().filter(|pattern| weight(pattern) > 0 && code::is_codeword(pattern)).count();
        codewords == 0 && self.beyond_one_bit() <= 1
    }

    /// The chip with "its one wide pattern" (Req 02). Wide is more than one bit set, and there must be just one such.
    fn wide(&self) -> Option<usize> {
        let wide: Vec<usize> = (0..9).filter(|&chip| weight(&self.patterns[chip]) > 1).collect();
        matches!(wide[..], [_]).then(|| wide[0])
    }

    /// "Its one wide pattern is beyond mending" (Req 02).
    pub fn one_wide_beyond_mending(&self) -> bool {
        self.wide().is_some_and(|chip| code::status(&self.patterns[chip]) == Status::Beyond)
    }

    /// "With 0 or 1 it answers; with more it answers if M of every pattern is the zero word", and "with several damaged chips also when its
    /// one wide pattern is beyond mending" (Req 02).
    fn answers_alone(&self) -> bool {
        self.damaged() <= 1 || self.patterns.iter().all(|pattern| code::mended(pattern) == 0) || self.one_wide_beyond_mending()
    }

    /// Whether its row is diagnosed (Req 04): it does not answer alone, and has one wide pattern, so one that is not beyond mending.
    pub fn asks_row(&self) -> bool {
        !self.answers_alone() && self.wide().is_some()
    }

    /// "The nine codewords that a write of its 64 plain bytes lays there, each xored with its chip's pattern."
    fn cells(&self) -> Vec<u8> {
        let mut words: Vec<u64> = self.bytes.chunks(8).map(|bytes| u64::from_be_bytes(bytes.try_into().unwrap())).collect();
        words.push(words.iter().fold(0, |sum, word| sum ^ word));
        let cells = words.iter().zip(&self.patterns);
        cells.flat_map(|(&word, pattern)| code::codeword(word).into_iter().zip(*pattern).map(|(byte, flips)| byte ^ flips)).collect()
    }
}

impl Plain {
    /// All that it gets of a boot is N.
    pub fn boot(lines: usize) -> Plain {
        Plain { lines: vec![Line { bytes: [0; 64], patterns: [[0; 9]; 9] }; lines] }
    }

    /// The other lines of a line's row: "128 lines from a multiple of 128; the last may be shorter" (Req 04).
    fn others(&self, line: usize) -> Vec<&Line> {
        let row = self.lines.chunks(128).nth(line / 128).unwrap();
        let (before, after) = row.split_at(line % 128);
        before.iter().chain(&after[1..]).collect()
    }

    /// The chip of a line that is blamed (Req 04): the plain memory "counts patterns that are no codewords" in the other lines.
    fn blamed(&self, line: usize) -> Option<usize> {
        let others = self.others(line);
        let count = |chip: usize| others.iter().filter(|other| !code::is_codeword(&other.patterns[chip])).count();
        let reaching: Vec<usize> = (0..9).filter(|&chip| 10 * count(chip) >= others.len()).collect();
        match reaching[..] {
            [chip] if !others.is_empty() && !code::is_codeword(&self.lines[line].patterns[chip]) => Some(chip),
            _ => None,
        }
    }

    /// The premise of a visit to a line: document 01's, and where its row is diagnosed (Req 04), that no chip but the one with the wide
    /// pattern is blamed. This is less than document 02 asks, that no other reaches the mark.
    pub fn premise(&self, line: usize) -> bool {
        let wanted = &self.lines[line];
        wanted.premise() && (!wanted.asks_row() || self.blamed(line).is_none_or(|chip| Some(chip) == wanted.wide()))
    }

    /// It "answers when that chip is blamed", the one with the wide pattern (Req 04).
    pub fn answers(&self, line: usize) -> bool {
        let wanted = &self.lines[line];
        wanted.answers_alone() || wanted.asks_row() && self.blamed(line) == wanted.wide()
    }

    /// It answers, "else 21". "An answer clears the line's patterns."
    pub fn visit(&mut self, line: usize) -> Result<[u8; 64], u32> {
        if !self.answers(line) {
            return Err(21);
        }
        self.lines[line].patterns = [[0; 9]; 9];
        Ok(self.lines[line].bytes)
    }

    /// Refusal 31: "task not below 8", "tested after 14 and before 1" (Req 01).
    fn task(task: u32) -> Result<(), u32> {
        if task < 8 { Ok(()) } else { Err(31) }
    }

    /// Refusal 1: "not below N".
    fn line(&mut self, line: u32) -> Result<&mut Line, u32> {
        self.lines.get_mut(line as usize).ok_or(1)
    }

    /// "Write sets the bytes and clears the line's patterns." Refusals 1, 2.
    pub fn write(&mut self, line: u32, data: &[u8]) -> Result<(), u32> {
        let line = self.line(line)?;
        let bytes = data.try_into().map_err(|_| 2u32)?;
        *line = Line { bytes, patterns: [[0; 9]; 9] };
        Ok(())
    }

    /// "A read is one visit, and its answer is the 64 bytes." Refusals 31, 1, 2, 21.
    pub fn read(&mut self, task: u32, line: u32, buffer_length: usize) -> Result<[u8; 64], u32> {
        Plain::task(task)?;
        self.line(line)?;
        if buffer_length != 64 {
            return Err(2);
        }
        self.visit(line as usize)
    }

    /// The lines that a patrol would visit: "min(budget, N − first)" from first upwards. Refusals 31, 1.
    pub fn patrolled(&self, task: u32, first: u32, budget: u32) -> Result<std::ops::Range<usize>, u32> {
        Plain::task(task)?;
        let first = first as usize;
        if first >= self.lines.len() {
            return Err(1);
        }
        Ok(first..first + (budget as usize).min(self.lines.len() - first))
    }

    /// Patrol "counts the visited and the refused".
    pub fn patrol(&mut self, task: u32, first: u32, budget: u32) -> Result<(u32, u32), u32> {
        let (mut visited, mut refused) = (0, 0);
        for line in self.patrolled(task, first, budget)? {
            visited += 1;
            if self.visit(line).is_err() {
                refused += 1;
            }
        }
        Ok((visited, refused))
    }

    /// "Renew does nothing." Refusal 3.
    pub fn renew(&self, chip: u32) -> Result<(), u32> {
        if chip < 9 { Ok(()) } else { Err(3) }
    }

    /// "Fault xors its pattern in." Refusals 1, 3, 4.
    pub fn fault(&mut self, line: u32, chip: u32, pattern: &[u8]) -> Result<(), u32> {
        let line = self.line(line)?;
        let kept = line.patterns.get_mut(chip as usize).ok_or(3u32)?;
        let pattern: Cell = pattern.try_into().map_err(|_| 4u32)?;
        for (byte, flips) in kept.iter_mut().zip(pattern) {
            *byte ^= flips;
        }
        Ok(())
    }

    /// What the memory must hold after the list.
    pub fn memory(&self) -> Vec<u8> {
        self.lines.iter().flat_map(Line::cells).collect()
    }
}
