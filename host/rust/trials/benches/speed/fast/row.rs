//! The diagnosis of a row.
use lemtskavo::LINE_BYTES;

use super::line::{Line, chips, flagged_chips};

const ROW: u32 = 128;

/// The mask of the chip of a line that the other lines of its row blame, or 0, and how many these are.
#[inline(never)]
pub(super) fn blamed(memory: &[u8], lines: u32, line: u32, flagged: u32) -> (u32, u32) {
    let first = line - line % ROW;
    let last = lines.min(first + ROW);
    let part = |from: u32, to: u32| memory[LINE_BYTES * from as usize..LINE_BYTES * to as usize].as_chunks().0;
    let mut counts = [0; 9];
    count(part(first, line), &mut counts);
    count(part(line + 1, last), &mut counts);
    let others = last - first - 1;
    let reaching = (0..9).fold(0, |mask, chip| mask | u32::from(10 * counts[chip] >= others) << chip);
    // Without another line all nine reach.
    (if reaching.is_power_of_two() { reaching & flagged } else { 0 }, others)
}

/// Counts the flagged words of lines for each chip.
#[inline(always)]
fn count(lines: &[Line], counts: &mut [u32; 9]) {
    for line in lines {
        for chip in chips(flagged_chips(line)) {
            counts[chip] += 1;
        }
    }
}
