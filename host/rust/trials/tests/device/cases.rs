//! The cases that random lists are there for.
use lemtskavo::ffi::Record;
use lemtskavo_trials::call::{Call, Outcome};
use lemtskavo_trials::tally::Tally;

/// What a list has seen, to tell which cases its calls come to.
pub(crate) struct Seen {
    /// The lines as they were written; none if the memory held anything at all before.
    pub(crate) written: Vec<Vec<u8>>,
    repaired: Vec<bool>,
    /// Chips whose catch-word has grown by the step and has not been renewed since.
    moved: u32,
}

impl Seen {
    pub(crate) fn new(lines: usize) -> Seen {
        Seen { written: vec![vec![0; 64]; lines], repaired: vec![false; lines], moved: 0 }
    }

    pub(crate) fn note(&mut self, call: &Call, before: &Record, outcome: &Outcome, tally: &mut Tally) {
        let collision = outcome.counts[2] != 0;
        match call {
            Call::Write { line, data } if outcome.refusal == 0 && !self.written.is_empty() => self.written[*line as usize].clone_from(data),
            Call::Fault { line, chip, .. } if outcome.refusal == 0 => self.note_damage(*line as usize, *chip, tally),
            Call::Read { line, .. } if outcome.refusal == 0 => self.note_answer(*line as usize, outcome, tally),
            Call::Read { .. } if outcome.refusal == 20 && collision => tally.case("refused 20 with a collision"),
            Call::Read { .. } if outcome.refusal == 21 && collision => tally.case("refused 21 with a collision"),
            Call::Patrol { .. } if outcome.counts[1] > 0 => tally.case("patrol with refused lines"),
            _ => {}
        }
        self.note_moved(call, before, &outcome.record);
        if call.rewritten(outcome) > 0 {
            note_total(call.task().unwrap() as usize, before, &outcome.record, tally);
        }
    }

    fn note_damage(&mut self, line: usize, chip: u32, tally: &mut Tally) {
        if !self.repaired[line] {
            return;
        }
        tally.case("damage on a line repaired before");
        if self.moved >> chip & 1 == 1 {
            tally.case("damage on a line repaired before, under a moved catch-word");
        }
    }

    fn note_answer(&mut self, line: usize, read: &Outcome, tally: &mut Tally) {
        let [_, flagged, collisions] = read.counts;
        self.repaired[line] |= flagged != 0;
        tally.case(match flagged.count_ones() {
            0 => "answered read, none flagged",
            1 => "answered read, one flagged",
            _ => "answered read, two or more flagged",
        });
        let other_bytes = !self.written.is_empty() && self.written[line] != read.buffer;
        for (met, case) in [
            (other_bytes, "answered read with other bytes than written"),
            (flagged >> 8 == 1, "answered read, chip 8 flagged"),
            (collisions & 0xFF != 0, "answered read, collision in a data chip"),
            (collisions >> 8 == 1, "answered read, collision in chip 8"),
            (collisions & self.moved != 0, "answered read, collision of a moved catch-word"),
            (flagged & self.moved != 0, "answered read, flagged under a moved catch-word"),
            (collisions != 0 && flagged != 0, "answered read, flagged and collision together"),
        ] {
            if met {
                tally.case(case);
            }
        }
    }

    fn note_moved(&mut self, call: &Call, before: &Record, after: &Record) {
        let visits = u32::from(call.task().is_some());
        for chip in 0..9 {
            if before.catch_words[chip] != after.catch_words[chip] {
                self.moved = self.moved & !(1 << chip) | visits << chip;
            }
        }
    }
}

/// Counts what a repair for a task did to its total.
fn note_total(task: usize, before: &Record, after: &Record, tally: &mut Tally) {
    if before.repairs[task] == u32::MAX {
        tally.case("repair at a total of 4,294,967,295");
    } else if after.repairs[task] == u32::MAX {
        tally.case("repair total reaches 4,294,967,295");
    } else if before.repairs.contains(&u32::MAX) {
        tally.case("repair counted beside a total of 4,294,967,295");
    }
}

/// Counts reads that Req 02 answers or refuses otherwise than document 01, by their refusals.
pub(crate) fn note_req_02(document_01: u32, req_02: u32, tally: &mut Tally) {
    match (document_01, req_02) {
        (21, 0) => tally.case("answered read that document 01 refuses 21 without Req 02"),
        (0, 21) => tally.case("read refused 21 that document 01 answers without Req 02"),
        _ => {}
    }
}

/// Req 04 answers what was answered without it in every byte and field, and changes no refusal but 21. Counts reads that only it answers.
pub(crate) fn note_req_04(without: &(Outcome, Vec<u8>), read: &Outcome, memory: &[u8], tally: &mut Tally) {
    let (former, kept) = without;
    match (former.refusal, read.refusal) {
        (21, 0) => tally.case("answered read that is refused 21 without Req 04"),
        // The passes are others.
        (21, 21) => assert_eq!((&former.record, &former.counts[1..], &kept[..]), (&read.record, &read.counts[1..], memory)),
        _ => assert!(former == read && kept == memory, "{read:?}\nis {former:?} without Req 04"),
    }
}

/// Counts calls with a task not below 8 by what else is wrong in them.
pub(crate) fn note_far_task(call: &Call, lines: u32, refusal: u32, tally: &mut Tally) {
    let (line, length) = match call {
        Call::Read { task: 8.., line, buffer } => (*line, buffer.len()),
        Call::Patrol { task: 8.., first, .. } => (*first, 64),
        _ => return,
    };
    tally.case(match (refusal, line >= lines, length != 64) {
        (12 | 13, _, _) => "refused 12 or 13 with a task not below 8",
        (14, _, _) => "refused 14 with a task not below 8",
        (_, false, false) => "refused 31 alone",
        (_, true, false) => "refused 31 with a wrong line",
        (_, false, true) => "refused 31 with a wrong buffer",
        (_, true, true) => "refused 31 with a wrong line and a wrong buffer",
    });
}
