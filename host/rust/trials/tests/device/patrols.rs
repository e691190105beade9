//! Patrols of every first line and budget.
use lemtskavo_trials::arguments::FAR_LINES;
use lemtskavo_trials::tally::Tally;
use lemtskavo_trials::twin::Twin;

#[test]
fn patrols_of_every_first_line_and_budget() {
    let mut tally = Tally::new("patrols");
    let far = [0x8000_0000, 0xFFFF_0000, 0xFFFF_FFFE, 0xFFFF_FFFF, 65_536, 65_537, 4_096];
    for lines in 1..=8u32 {
        let mut twin = Twin::new(lines as usize, [0xFEED; 9], &mut tally);
        for line in 0..lines {
            twin.fault(line, line, &[0xFF; 9], &mut tally);
        }
        for first in (0..=lines + 1).chain(FAR_LINES) {
            for budget in (0..=lines + 1).chain(far) {
                let patrol = twin.clone().patrol(first, budget, &mut tally);
                let visited = if first < lines { budget.min(lines - first) } else { 0 };
                assert_eq!(patrol.refusal, if first < lines { 0 } else { 1 });
                assert_eq!(patrol.counts, [visited, 0, visited]);
            }
        }
    }
    tally.print();
}
