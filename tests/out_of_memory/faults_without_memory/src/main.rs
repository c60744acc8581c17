//! Loads every changed sample, each prefix of one, and roots that are built in place, whose first fault is known. Opens
//! what has no fault, and looks up rows by key. It does not allocate, so each call returns the same even if all memory
//! is refused.

mod built_root;
mod built_roots;
mod faults;
mod reported;

use std::process::ExitCode;

fn main(rt: HostRuntime) -> ExitCode {
    let (passed, failed) = faults::count_reported(rt.alloc());
    let _ = println!(rt; "{passed} passed, {failed} failed");
    ExitCode::from(u8::from(failed != 0))
}
