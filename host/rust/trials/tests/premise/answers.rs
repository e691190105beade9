//! What is compared of a call, and a list's run on the library beside the plain memory's answers.
use lemtskavo::ffi::Record;
use lemtskavo_trials::booted::Booted;
use lemtskavo_trials::call::{Call, Outcome};
use lemtskavo_trials::model::plain::Plain;
use lemtskavo_trials::tally::Tally;

/// What is compared of one call ("Plain memory").
#[derive(Clone, Debug, PartialEq)]
pub(crate) enum Answer {
    Refused(u32),
    Accepted,
    Bytes([u8; 64]),
    Counts(u32, u32),
}

/// The plain memory's answer to a call.
pub(crate) fn on_plain(call: &Call, plain: &mut Plain) -> Answer {
    let answer = match call {
        Call::Write { line, data } => plain.write(*line, data).map(|()| Answer::Accepted),
        Call::Read { task, line, buffer } => plain.read(*task, *line, buffer.len()).map(Answer::Bytes),
        Call::Patrol { task, first, budget } => {
            plain.patrol(*task, *first, *budget).map(|(visited, refused)| Answer::Counts(visited, refused))
        }
        Call::Renew { chip, .. } => plain.renew(*chip).map(|()| Answer::Accepted),
        Call::Fault { line, chip, pattern } => plain.fault(*line, *chip, pattern).map(|()| Answer::Accepted),
    };
    answer.unwrap_or_else(Answer::Refused)
}

/// The part of the library's outcome that is compared.
fn compared(call: &Call, outcome: &Outcome) -> Answer {
    match call {
        _ if outcome.refusal != 0 => Answer::Refused(outcome.refusal),
        Call::Read { .. } => Answer::Bytes(outcome.buffer.as_slice().try_into().unwrap()),
        Call::Patrol { .. } => Answer::Counts(outcome.counts[0], outcome.counts[1]),
        _ => Answer::Accepted,
    }
}

/// The lines that a call would visit.
pub(crate) fn visited(call: &Call, plain: &Plain) -> Vec<usize> {
    match call {
        Call::Read { task: 0..8, line, buffer } if (*line as usize) < plain.lines.len() && buffer.len() == 64 => vec![*line as usize],
        Call::Patrol { task, first, budget } => plain.patrolled(*task, *first, *budget).map_or(Vec::new(), Iterator::collect),
        _ => Vec::new(),
    }
}

/// Goes through the visits of a call, each with the plain memory as it is just before it: a repair takes away what later ones would count.
pub(crate) fn each_visit(call: &Call, plain: &Plain, mut note: impl FnMut(&Plain, usize)) {
    let lines = visited(call, plain);
    if let [line] = lines[..] {
        return note(plain, line);
    }
    let mut plain = plain.clone();
    for line in lines {
        note(&plain, line);
        // A refusal changes nothing.
        _ = plain.visit(line);
    }
}

/// The first line of which the call's visit would break the premise.
pub(crate) fn outside_premise(call: &Call, plain: &Plain) -> Option<usize> {
    let mut outside = None;
    each_visit(call, plain, |plain, line| outside = outside.or_else(|| (!plain.premise(line)).then_some(line)));
    outside
}

/// A call that is under the premise by the way its list is made, with the plain memory's answer.
pub(crate) fn under_premise(call: Call, plain: &mut Plain) -> (Call, Answer) {
    assert_eq!(outside_premise(&call, plain), None, "{call:?} breaks the premise");
    let answer = on_plain(&call, plain);
    (call, answer)
}

/// Runs a list on the library and compares it with the plain memory's answers and with its lines at the end.
pub(crate) fn run(list: &[(Call, Answer)], end: &[u8], catch_words: [u64; 9], tally: &mut Tally) {
    let mut booted = Booted::new(end.len() / 81, catch_words, tally);
    for (place, (call, answer)) in list.iter().enumerate() {
        let given = booted.record;
        let outcome = booted.call(call, tally);
        assert_eq!(compared(call, &outcome), *answer, "call {place}: {call:?}\nwith {given:?}");
        count(call, &given, &outcome, tally);
    }
    assert!(booted.memory.inside() == end, "the memory after the list is not that of the plain lines and patterns");
}

/// Counts what only the library's side shows.
fn count(call: &Call, before: &Record, outcome: &Outcome, tally: &mut Tally) {
    if call.task().is_some() && before.catch_words != outcome.record.catch_words {
        tally.case("call that moved a catch-word");
    }
    if call.task().is_some() && outcome.record.repairs.iter().filter(|total| **total > 0).count() > 1 {
        tally.case("visits after repairs for several tasks");
    }
    if !matches!(call, Call::Read { .. }) || outcome.counts[0] == 0 {
        return;
    }
    let [_, flagged, collisions] = outcome.counts;
    tally.case(match (outcome.refusal, flagged.count_ones()) {
        (0, 0) => "answered read, none flagged",
        (0, 1) => "answered read, one flagged",
        (0, _) => "answered read, two or more flagged",
        _ => "read refused 21",
    });
    if collisions != 0 {
        tally.case("read with a collision");
    }
    if collisions != 0 && flagged != 0 {
        tally.case("read with a collision and a flagged chip");
    }
}
