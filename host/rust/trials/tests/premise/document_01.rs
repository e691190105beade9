//! Under the premise Req 02 and Req 04 take no answer away and change none: they only answer more.
use lemtskavo_trials::booted::Booted;
use lemtskavo_trials::call::{Call, read_by};
use lemtskavo_trials::model::device::Step5;
use lemtskavo_trials::model::plain::Plain;
use lemtskavo_trials::tally::Tally;
use lemtskavo_trials::twin::UNREAD;

use crate::answers::visited;
use crate::maker::Maker;

/// Makes the visits of a call one by one as reads on the library, each beside a read by document 01's step 5: if that answers, so does the
/// library, and with the same in every byte and field. Gives the rank after the visits.
fn visit_beside_document_01(call: &Call, booted: &Booted, lines: &Plain, tally: &mut Tally) -> Booted {
    let mut booted = booted.clone();
    for line in visited(call, lines) {
        let (task, line) = (call.task().unwrap(), line as u32);
        let given = booted.record;
        let (former, expected) = read_by(Step5::Document01, given, booted.memory.inside(), task, line, &UNREAD);
        let read = booted.call(&Call::Read { task, line, buffer: UNREAD.to_vec() }, tally);
        match (former.refusal, read.refusal) {
            (0, _) => {
                assert_eq!(read, former, "document 01 answers line {line}: {call:?}\nwith {given:?}");
                assert!(booted.memory.inside() == expected, "{call:?}\nwith {given:?}: the memories differ");
                tally.case(if read.counts[0] == 3 { "answered alike after pass three" } else { "answered alike before pass three" });
            }
            (21, 0) => tally.case(if read.counts[0] == 3 { "answered by Req 02 alone" } else { "answered by Req 04 alone" }),
            (21, 21) => tally.case("refused 21 by both"),
            refusals => panic!("under the premise line {line} is refused as {refusals:?}: {call:?}\nwith {given:?}"),
        }
    }
    booted
}

#[test]
fn what_document_01_answers_is_answered_alike() {
    let mut tally = Tally::new("beside document 01's step 5");
    tally.lists(0..1_200, |mut random, tally| {
        let (lines, calls) = (1 + random.below(4), random.below(81));
        let mut maker = Maker::new(random, lines);
        let list: Vec<Call> = (0..calls).map(|_| maker.next(tally).0).collect();
        for catch_words in maker.boot_catch_words() {
            let mut booted = Booted::new(lines, catch_words, tally);
            for call in &list {
                let one_by_one = visit_beside_document_01(call, &booted, &maker.plain, tally);
                booted.call(call, tally);
                if call.task().is_some() {
                    assert_eq!(booted.record, one_by_one.record, "{call:?}: another record than after its visits one by one");
                    let same = booted.memory.inside() == one_by_one.memory.inside();
                    assert!(same, "{call:?}: another memory than after its visits one by one");
                }
            }
        }
    });
    tally.print();
    let cases = [
        "answered alike before pass three",
        "answered alike after pass three",
        "answered by Req 02 alone",
        "answered by Req 04 alone",
        "refused 21 by both",
    ];
    tally.demand(&cases, 1_000);
}
