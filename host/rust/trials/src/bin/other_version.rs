//! Boots a rank over an archive of another version of the interface, which must panic: its structs may be others.
//!
//! This program's own `rank_version` comes before the archive's; the build script lets the linker take the first of two.
use std::panic::{catch_unwind, set_hook};
use std::process::ExitCode;

use lemtskavo::{CHIPS, Rank, ffi, memory_bytes};

// SAFETY: the name is the archive's on purpose, and so are parameters and result.
#[unsafe(no_mangle)]
extern "C" fn rank_version() -> u32 {
    ffi::VERSION + 1
}

fn main() -> ExitCode {
    // The panic is what is asked for, so that its message would mislead.
    set_hook(Box::new(|_| {}));
    let booted = catch_unwind(|| drop(Rank::boot(&mut [0; memory_bytes(1)], [0; CHIPS])));
    if booted.is_ok() {
        println!("A boot over an archive of another version did not panic.");
        return ExitCode::FAILURE;
    }
    println!("A boot over an archive of another version panics.");
    ExitCode::SUCCESS
}
