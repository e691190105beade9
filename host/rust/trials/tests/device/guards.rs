//! The guards of lent buffers notice a write outside them.
use lemtskavo_trials::guarded::lend;

/// Writes a byte so many places from the first of 81 lent ones.
fn write_at(place: isize) {
    let mut lent = lend(&[0; 81]);
    // SAFETY: guard cells lie on both sides.
    unsafe { *lent.pointer().offset(place) = 0 };
    lent.check_guards();
}

#[test]
fn a_write_inside_is_none_of_theirs() {
    write_at(0);
    write_at(80);
}

#[test]
#[should_panic(expected = "outside the buffer")]
fn a_write_before_is_noticed() {
    write_at(-1);
}

#[test]
#[should_panic(expected = "outside the buffer")]
fn a_write_behind_is_noticed() {
    write_at(81);
}
