//! Every set of conditions at once: the first in the order of documents 01 and 02 is the refusal.
use lemtskavo_trials::arguments::FAR_TASKS;
use lemtskavo_trials::call::{Call, Kind};
use lemtskavo_trials::model::code;
use lemtskavo_trials::patterns::{CHECK_07, one_bit};
use lemtskavo_trials::tally::Tally;
use lemtskavo_trials::twin::Twin;

/// The order of all conditions that a call with a record can have before its visits.
const ORDER: [u32; 8] = [12, 13, 14, 31, 1, 2, 3, 4];

/// A set of conditions, and which of several ways to meet each.
#[derive(Clone, Copy)]
struct Conditions {
    set: u32,
    way: usize,
}

impl Conditions {
    fn met(self, number: u32) -> bool {
        let place = ORDER.iter().position(|other| *other == number).unwrap();
        self.set >> place & 1 == 1
    }

    /// One of these if the condition is met, else what is right.
    fn choose<T: Copy>(self, number: u32, wrong: &[T], right: T) -> T {
        if self.met(number) { wrong[self.way % wrong.len()] } else { right }
    }

    /// The rank with the state that 12, 13 and 14 are about.
    fn break_state(self, twin: &Twin) -> Twin {
        let mut broken = twin.clone();
        broken.set_length(self.choose(13, &[323, 325, 0, 405], 324));
        let record = &mut broken.library.record;
        record.lines = self.choose(12, &[0, 65_537, u32::MAX, 4, 4], 4);
        record.enable = self.choose(12, &[true, true, true, false, false], true);
        record.registers[self.way % 9] ^= self.choose(14, &[1 << 63], 0);
        broken
    }

    /// The five calls, each with the conditions that it can be refused by.
    fn calls(self) -> [(Call, &'static [u32]); 5] {
        let task = self.choose(31, &FAR_TASKS, (self.way % 8) as u32);
        let line = self.choose(1, &[4, 65_536, u32::MAX], (self.way % 3) as u32);
        let buffer = vec![0x66; self.choose(2, &[63, 65, 0], 64)];
        let chip = self.choose(3, &[9, 256, u32::MAX], 8);
        let pattern = vec![0x11; self.choose(4, &[8, 10, 0], 9)];
        [
            (Call::Write { line, data: buffer.clone() }, &[12, 13, 14, 1, 2]),
            (Call::Read { task, line, buffer }, &[12, 13, 14, 31, 1, 2]),
            (Call::Patrol { task, first: line, budget: 4 }, &[12, 13, 14, 31, 1]),
            (Call::Renew { chip, catch_word: 1 }, &[12, 14, 3]),
            (Call::Fault { line, chip, pattern }, &[12, 13, 14, 1, 3, 4]),
        ]
    }

    /// Makes the five calls on the broken rank. A read that comes to its visit is answered, or refused 20 or 21.
    fn check(self, twin: &Twin, tally: &mut Tally) {
        let broken = self.break_state(twin);
        for (call, given) in self.calls() {
            let first = ORDER.into_iter().find(|number| given.contains(number) && self.met(*number));
            let visit = if call.kind() == Kind::Read { [0, 20, 21][self.way % 3] } else { 0 };
            let outcome = broken.clone().call(&call, tally);
            assert_eq!(outcome.refusal, first.unwrap_or(visit), "{call:?}");
            if outcome.refusal != 0 {
                assert_eq!(outcome.record, broken.record(), "a refusal returns the record given");
            }
            if outcome.refusal != 0 && outcome.refusal != visit {
                assert_eq!(outcome.counts, [0; 3], "a call refused before its visits counts nothing");
            }
        }
    }
}

#[test]
fn refusals_keep_their_order() {
    let mut tally = Tally::new("orders");
    let mut twin = Twin::new(4, [5; 9], &mut tally);
    // Line 1 leads to 20, line 2 to 21.
    twin.fault(1, 0, &code::codeword(1), &mut tally);
    twin.fault(2, 0, &CHECK_07, &mut tally);
    twin.fault(2, 1, &one_bit(9), &mut tally);
    for set in 0..1u32 << ORDER.len() {
        for way in 0..12 {
            Conditions { set, way }.check(&twin, &mut tally);
        }
    }
    tally.print();
    tally.demand_refusals(Kind::Read, &[20, 21], 16);
}
