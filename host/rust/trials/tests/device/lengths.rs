//! Wrong lengths, each one, and the lengths that boot takes.
use lemtskavo::ffi::Record;
use lemtskavo_trials::arguments::LARGE_LENGTHS;
use lemtskavo_trials::call::{Call, Kind, library_record};
use lemtskavo_trials::model::device;
use lemtskavo_trials::tally::Tally;
use lemtskavo_trials::twin::{TASK, Twin};

#[test]
fn every_wrong_length() {
    let mut tally = Tally::new("lengths");
    let mut random = tally.random();
    let mut twin = Twin::new(3, [1; 9], &mut tally);
    for length in (0..=130).chain(LARGE_LENGTHS) {
        let bytes = random.bytes(length);
        let buffer = if length == 64 { 0 } else { 2 };
        assert_eq!(twin.write(1, &bytes, &mut tally), buffer);
        assert_eq!(twin.call(&Call::Read { task: TASK, line: 1, buffer: bytes.clone() }, &mut tally).refusal, buffer);
        let pattern = if length == 9 { 0 } else { 4 };
        assert_eq!(twin.fault(1, 4, &bytes, &mut tally), pattern);
    }
    for count in (0..=20).chain(LARGE_LENGTHS) {
        let catch_words: Vec<u64> = (0..count).map(|_| random.word()).collect();
        let refusal = if count == 9 { 0 } else { 5 };
        assert_eq!(Twin::boot(162, &catch_words, &mut tally).0, refusal);
        // 11 comes before 5.
        assert_eq!(Twin::boot(163, &catch_words, &mut tally).0, 11);
    }
    let refused = [(Kind::Write, 2), (Kind::Read, 2), (Kind::Fault, 4), (Kind::Boot, 5), (Kind::Boot, 11)];
    assert_eq!(refused.map(|(kind, refusal)| tally.refused(kind, refusal)), [139, 139, 139, 29, 30]);
    tally.print();
}

#[test]
fn boot_takes_1_to_65536_whole_lines() {
    let mut tally = Tally::new("boots");
    let limit = 81 * 65_536;
    let edges =
        [limit - 82, limit - 81, limit - 80, limit - 1, limit, limit + 1, limit + 80, limit + 81, limit + 82, 2 * limit, 2 * limit + 81];
    for length in (0..=500).chain(edges) {
        let accepted = length > 0 && length % 81 == 0 && length <= limit;
        let (refusal, twin) = Twin::boot(length, &[3; 9], &mut tally);
        assert_eq!(refusal, if accepted { 0 } else { 11 });
        if accepted {
            let lines = (length / 81) as u32;
            assert_eq!(twin.record(), Record { lines, enable: true, catch_words: [3; 9], registers: [3; 9], repairs: [0; 8] });
            assert!(twin.library.memory.inside().iter().all(|byte| *byte == 0));
        } else {
            assert_eq!(twin.record(), library_record(device::Record::fresh()));
        }
    }
    assert_eq!(tally.refused(Kind::Boot, 0), 6 + 2);
    tally.print();
}
