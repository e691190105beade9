//! Chips that say if they mended (document 02, Req 02): examples, each on the static library beside document 01's step 5 without Req 02.
use lemtskavo_trials::call::{Call, Outcome};
use lemtskavo_trials::model::code::{self, Cell, Status};
use lemtskavo_trials::model::device::Step5;
use lemtskavo_trials::model::plain::Plain;
use lemtskavo_trials::patterns::{CHECK_03, CHECK_07, WORD_300, one_bit};
use lemtskavo_trials::random::Random;
use lemtskavo_trials::tally::Tally;
use lemtskavo_trials::twin::{TASK, Twin, UNREAD};

const TITLE: &str = "chips that say if they mended";

const ONE_BIT: Cell = [0, 0, 0x10, 0, 0, 0, 0, 0, 0];

/// One line, written, damaged and read.
struct Example {
    /// The 64 bytes written, and the memory before the damage.
    written: Vec<u8>,
    laid: Vec<u8>,
    /// The memory with the damage, which is under the premise or not.
    damaged: Vec<u8>,
    premise: bool,
    /// Refusal, 64 bytes and memory by document 01's step 5 without Req 02.
    former: (u32, Vec<u8>, Vec<u8>),
    /// What the library gives, and the rank then.
    read: Outcome,
    twin: Twin,
}

impl Example {
    /// Damages chips of a line of random bytes; no other damage is there. The device model must give what the library gives.
    fn new(damage: &[(usize, Cell)], random: &mut Random) -> Example {
        let mut tally = Tally::new(TITLE);
        let mut twin = Twin::new(1, random.words(), &mut tally);
        let written = random.bytes(64);
        twin.write(0, &written, &mut tally);
        let laid = twin.model.clone();
        let mut plain = Plain::boot(1);
        for (chip, pattern) in damage {
            twin.fault(0, *chip as u32, pattern, &mut tally);
            plain.fault(0, *chip as u32, pattern).unwrap();
        }
        let damaged = twin.model.clone();
        let call = Call::Read { task: TASK, line: 0, buffer: UNREAD.to_vec() };
        let (former, memory) = twin.read_by(Step5::Document01, &call).unwrap();
        let read = twin.call(&call, &mut tally);
        let former = (former.refusal, former.buffer, memory);
        Example { written, laid, damaged, premise: plain.lines[0].premise(), former, read, twin }
    }

    /// The visit made three passes, and these chips were flagged and counted if it was answered.
    fn check_visit(&self, flagged: u32) {
        assert_eq!(self.read.counts, [3, flagged, 0]);
        let mut repairs = [0; 8];
        repairs[TASK as usize] = if self.read.refusal == 0 { flagged.count_ones() } else { 0 };
        assert_eq!(self.read.record.repairs, repairs);
    }

    /// The line written is read, and the memory is as the write laid it.
    fn check_undone(&self) {
        assert_eq!((self.read.refusal, &self.read.buffer), (0, &self.written));
        assert_eq!(self.twin.model, self.laid);
    }

    /// The read is refused 21 and changes nothing.
    fn check_refused(&self) {
        assert_eq!((self.read.refusal, &self.read.buffer[..]), (21, &UNREAD[..]));
        assert_eq!(self.twin.model, self.damaged);
    }

    /// A read by document 01 without Req 02 gives the line written, and the memory is as the write laid it.
    fn check_former_undoes(&self) {
        assert_eq!(self.former, (0, self.written.clone(), self.laid.clone()));
    }

    /// A read by document 01 without Req 02 is refused 21 and changes nothing.
    fn check_former_refuses(&self) {
        assert_eq!(self.former, (21, UNREAD.to_vec(), self.damaged.clone()));
    }

    /// Under the premise, a line that was refused is read as it was written.
    fn check_answered_now(&self, flagged: u32) {
        assert!(self.premise);
        self.check_former_refuses();
        self.check_visit(flagged);
        self.check_undone();
    }
}

fn random() -> Random {
    Tally::new(TITLE).random()
}

/// The first example of a test.
fn example(damage: &[(usize, Cell)]) -> Example {
    Example::new(damage, &mut random())
}

#[test]
fn the_patterns_have_the_status_that_the_examples_need() {
    let status = |pattern| code::status(&pattern);
    assert_eq!([WORD_300, CHECK_03, [0xFF; 9]].map(status), [Status::Beyond; 3]);
    assert_eq!([CHECK_07, ONE_BIT].map(status), [Status::Mended; 2]);
    assert_eq!([[0; 9], code::codeword(1)].map(status), [Status::Sound; 2]);
    assert_eq!([WORD_300, CHECK_03, CHECK_07, ONE_BIT].map(|pattern| code::mended(&pattern)), [0x300, 0, 1, 0]);
}

#[test]
fn a_chip_beyond_mending_beside_one_bit_was_refused_and_is_answered() {
    example(&[(0, WORD_300), (1, ONE_BIT)]).check_answered_now(0x003);
}

#[test]
fn a_chip_beyond_mending_beside_one_bit_in_every_two_chips() {
    let mut random = random();
    for beyond in 0..9 {
        for other in (0..9).filter(|other| *other != beyond) {
            for position in 0..72 {
                let example = Example::new(&[(beyond, WORD_300), (other, one_bit(position))], &mut random);
                example.check_answered_now(1 << beyond | 1 << other);
            }
        }
    }
}

#[test]
fn a_chip_beyond_mending_beside_one_bit_in_each_of_the_eight_others() {
    let mut random = random();
    for beyond in 0..9 {
        let damage: [(usize, Cell); 9] = std::array::from_fn(|chip| (chip, if chip == beyond { WORD_300 } else { ONE_BIT }));
        Example::new(&damage, &mut random).check_answered_now(0x1FF);
    }
}

/// No promise is made here: chip 1 inverts a bit that was right and tells that it mended, and chip 0 is rebuilt from that word.
#[test]
fn outside_the_premise_a_line_that_was_refused_is_answered_with_wrong_bytes() {
    let mut example = example(&[(0, WORD_300), (1, CHECK_07)]);
    assert!(!example.premise);
    example.check_former_refuses();
    example.check_visit(0x003);
    let mut wrong = example.written.clone();
    wrong[7] ^= 1;
    wrong[15] ^= 1;
    assert_eq!((example.read.refusal, &example.read.buffer), (0, &wrong));
    // The memory holds the wrong line as a write of it would lay it, so later reads can't tell.
    let again = example.twin.read(0, &mut Tally::new(TITLE));
    assert_eq!((again.refusal, again.counts[0], again.buffer), (0, 1, wrong));
}

/// No promise is made here: two chips beyond mending are refused though both words are whole.
#[test]
fn outside_the_premise_two_chips_beyond_mending_were_answered_and_are_refused() {
    let example = example(&[(0, CHECK_03), (1, CHECK_03)]);
    assert!(!example.premise);
    example.check_former_undoes();
    example.check_visit(0x003);
    example.check_refused();
}

#[test]
fn a_whole_word_beyond_mending_beside_one_bit_is_answered_as_before() {
    let example = example(&[(0, CHECK_03), (1, ONE_BIT)]);
    assert!(example.premise);
    example.check_former_undoes();
    example.check_visit(0x003);
    example.check_undone();
}

#[test]
fn a_chip_that_mends_wrongly_beside_one_bit_is_refused_as_before() {
    let example = example(&[(0, CHECK_07), (1, ONE_BIT)]);
    assert!(example.premise);
    example.check_former_refuses();
    example.check_visit(0x003);
    example.check_refused();
}
