//! One test's random lists, and how often it reached what.
use std::collections::BTreeMap;

use crate::call::{Kind, Outcome};
use crate::model::code::Status;
use crate::random::Random;

/// The columns of the table: the refusal numbers of documents 01 and 02, 0 for none.
const REFUSALS: [u32; 13] = [0, 1, 2, 3, 4, 5, 11, 12, 13, 14, 20, 21, 31];

/// The cases of a visit's step 5, by how many flagged chips are beyond mending (document 02, Req 02) and whether one is blamed (Req 04).
pub const STEP_5: [&str; 5] = [
    "two or more flagged, none beyond mending: answered",
    "two or more flagged, none beyond mending, none blamed: refused 21",
    "two or more flagged, one beyond mending: answered",
    "two or more flagged, none beyond mending, one blamed: answered",
    "two or more flagged, two or more beyond mending: refused 21",
];

/// How often each refusal and each named case was reached in a test, which is known by its title.
#[derive(Debug)]
pub struct Tally {
    title: &'static str,
    table: [[u64; 32]; Kind::ALL.len()],
    cases: BTreeMap<&'static str, u64>,
}

impl Tally {
    pub fn new(title: &'static str) -> Tally {
        Tally { title, table: Default::default(), cases: BTreeMap::new() }
    }

    /// The test's random numbers, if it has no lists.
    pub fn random(&self) -> Random {
        self.random_of(0, seed())
    }

    fn random_of(&self, list: u64, seed: u64) -> Random {
        // FNV-1a: tests with other titles have other numbers.
        let title =
            self.title.bytes().fold(0xCBF2_9CE4_8422_2325, |hash: u64, byte| (hash ^ u64::from(byte)).wrapping_mul(0x0000_0100_0000_01B3));
        Random::new(title ^ seed.wrapping_mul(0xD6E8_FEB8_6659_FD93) ^ list.wrapping_mul(0xA24B_AED4_963E_E407))
    }

    /// Runs the test's lists of these numbers, each with random numbers of its own.
    pub fn lists(&mut self, numbers: std::ops::Range<u64>, mut run: impl FnMut(Random, &mut Tally)) {
        let mut trace = Trace { title: self.title, seed: seed(), list: 0 };
        for list in numbers {
            trace.list = list;
            run(self.random_of(list, trace.seed), self);
        }
    }

    pub fn call(&mut self, kind: Kind, refusal: u32) {
        assert!(kind.possible().contains(&refusal), "{kind:?} refused {refusal}");
        self.table[kind as usize][refusal as usize] += 1;
    }

    pub fn case(&mut self, name: &'static str) {
        *self.cases.entry(name).or_default() += 1;
    }

    /// Counts which case of step 5 a read came to, by the statuses of the line's chips before it.
    pub fn step_5(&mut self, statuses: [Status; 9], read: &Outcome) {
        let passes = read.counts[0];
        if passes < 3 {
            return;
        }
        let beyond = statuses.iter().filter(|status| **status == Status::Beyond).count();
        self.case(match (beyond, read.refusal, passes) {
            (0, 0, 3) => STEP_5[0],
            // A row of one line adds no pass.
            (0, 21, _) => STEP_5[1],
            (1, 0, 3) => STEP_5[2],
            (0, 0, _) => STEP_5[3],
            (2.., 21, 3) => STEP_5[4],
            (_, refusal, _) => panic!("{beyond} chips are beyond mending, and the read gives {refusal} after {passes} passes"),
        });
    }

    pub fn calls(&self) -> u64 {
        self.table.iter().flatten().sum()
    }

    pub fn refused(&self, kind: Kind, refusal: u32) -> u64 {
        self.table[kind as usize][refusal as usize]
    }

    /// How often a case was reached.
    pub fn count(&self, name: &str) -> u64 {
        self.cases.get(name).copied().unwrap_or(0)
    }

    /// The cases that a test is about must have been reached.
    pub fn demand(&self, names: &[&str], least: u64) {
        for name in names {
            let reached = self.count(name);
            assert!(reached >= least, "{name}: reached {reached} times, at least {least} are due");
        }
    }

    /// The refusals that a test is about must have been reached.
    pub fn demand_refusals(&self, kind: Kind, refusals: &[u32], least: u64) {
        for &refusal in refusals {
            let reached = self.refused(kind, refusal);
            assert!(reached >= least, "{kind:?} with {refusal}: reached {reached} times, at least {least} are due");
        }
    }

    /// Every refusal that these calls can have must have been reached, but for some.
    pub fn demand_possible(&self, kinds: &[Kind], but: &[u32], least: u64) {
        for kind in kinds {
            let due: Vec<u32> = kind.possible().iter().copied().filter(|refusal| !but.contains(refusal)).collect();
            self.demand_refusals(*kind, &due, least);
        }
    }

    pub fn print(&self) {
        println!("{}: {} calls", self.title, self.calls());
        let head: String = REFUSALS.iter().map(|refusal| format!("{refusal:>8}")).collect();
        println!("{:8}{head}", "");
        for (kind, row) in Kind::ALL.iter().zip(&self.table) {
            let counts: String = REFUSALS.iter().map(|refusal| format!("{:>8}", row[*refusal as usize])).collect();
            println!("{:8}{counts}", format!("{kind:?}"));
        }
        for (name, count) in &self.cases {
            println!("{count:>8} {name}");
        }
    }
}

/// The seed of all tests: 1, or the number in `RANK_TEST_SEED`.
fn seed() -> u64 {
    std::env::var("RANK_TEST_SEED").map_or(1, |seed| seed.parse().expect("RANK_TEST_SEED is a number"))
}

/// Says which list failed, so that it can be run again.
struct Trace {
    title: &'static str,
    seed: u64,
    list: u64,
}

impl Drop for Trace {
    fn drop(&mut self) {
        if std::thread::panicking() {
            eprintln!("{}: failed in list {} of RANK_TEST_SEED={}", self.title, self.list, self.seed);
        }
    }
}
