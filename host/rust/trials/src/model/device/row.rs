//! Document 02, Req 04, "Row diagnosis".
use super::Record;
use super::visit::first_two;

/// What the diagnosis of a row gives: the chip that is blamed, if one is, and the passes made over the other lines.
pub(super) struct Diagnosis {
    pub(super) blamed: Option<usize>,
    pub(super) passes: u32,
}

/// "A row is 128 lines from a multiple of 128; the last may be shorter." The other lines are those without the wanted one.
fn other_lines(record: &Record, wanted: u32) -> Vec<u32> {
    let first = wanted - wanted % 128;
    (first..record.lines.min(first + 128)).filter(|&line| line != wanted).collect()
}

/// "Every other line of the row gets passes one and two, and flagged words are counted for each chip." "These passes renew no catch-word
/// and write nothing."
pub(super) fn diagnose(record: &Record, memory: &[u8], wanted: u32, flagged: u32) -> Diagnosis {
    let others = other_lines(record, wanted);
    let mut counts = [0; 9];
    for &line in &others {
        let flagged = first_two(&record.catch_words, memory, line).flagged;
        for (chip, count) in counts.iter_mut().enumerate() {
            *count += flagged >> chip & 1;
        }
    }
    let others = others.len() as u32;
    // "The reported passes grow by two for each other line."
    Diagnosis { blamed: blamed(flagged, counts, others), passes: 2 * others }
}

/// "Chip K is blamed if it is flagged on the wanted line, ten times its count reaches the number of other lines, there is at least one
/// other line, and no other chip reaches that mark."
fn blamed(flagged: u32, counts: [u32; 9], others: u32) -> Option<usize> {
    let reaches = |chip: usize| 10 * counts[chip] >= others;
    let no_other_reaches = |chip: usize| (0..9).all(|other| other == chip || !reaches(other));
    (0..9).find(|&chip| flagged >> chip & 1 == 1 && reaches(chip) && others >= 1 && no_other_reaches(chip))
}
