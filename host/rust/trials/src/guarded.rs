//! Buffers that are lent to calls between guard cells.

/// Guard cells on each side; an odd number, so that lent bytes begin at an odd address.
const GUARD: usize = 67;

/// A lent buffer that lies between guard cells.
#[derive(Clone, Debug)]
pub struct Guarded<T> {
    cells: Vec<T>,
    length: usize,
    guard: T,
}

/// Guarded bytes.
pub fn lend(bytes: &[u8]) -> Guarded<u8> {
    Guarded::new(bytes, 0xA5)
}

impl<T: Copy + PartialEq> Guarded<T> {
    pub fn new(inside: &[T], guard: T) -> Guarded<T> {
        let mut cells = vec![guard; GUARD];
        cells.extend_from_slice(inside);
        cells.resize(GUARD + inside.len() + GUARD, guard);
        Guarded { cells, length: inside.len(), guard }
    }

    pub fn inside(&self) -> &[T] {
        &self.cells[GUARD..GUARD + self.length]
    }

    pub(crate) fn length(&self) -> usize {
        self.length
    }

    /// The first lent cell. A pointer into the whole allocation, so that a stray write lands in a guard.
    pub fn pointer(&mut self) -> *mut T {
        // SAFETY: GUARD cells and the lent ones lie in the allocation.
        unsafe { self.cells.as_mut_ptr().add(GUARD) }
    }

    /// Panics if a guard cell was written.
    pub fn check_guards(&self) {
        let (before, rest) = self.cells.split_at(GUARD);
        let after = &rest[self.length..];
        assert!(before.iter().chain(after).all(|cell| *cell == self.guard), "a call wrote outside the buffer lent to it");
    }

    /// For a buffer that a call may only read: it and its guards must be as before.
    pub(crate) fn check_kept(&self, before: &[T]) {
        self.check_guards();
        assert!(self.inside() == before, "a call wrote to a buffer that it may only read");
    }
}
