//! The claim, observed: fault lists under the premise on the static library and on the plain memory.
//!
//! A call whose visits would break the premise is left out of the list; a write of the line in question takes its place, so that the list
//! goes on.
mod answers;
mod document_01;
mod edges;
mod lists;
mod maker;
mod wide_ranks;
