//! What the tests of the static library from outside stand on: an independent model of the specification, the calls on guarded buffers,
//! random arguments, and a tally of what was reached.
pub mod arguments;
pub mod bad_row;
pub mod booted;
pub mod call;
pub mod guarded;
pub mod library;
pub mod model;
pub mod patterns;
pub mod random;
pub mod tally;
pub mod twin;
pub mod words;
