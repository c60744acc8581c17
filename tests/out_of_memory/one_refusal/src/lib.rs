//! Runs of calls of which one allocation is refused, for programs that try each of a section of calls in turn.
//!
//! Standard input has the number of a section and that of the allocations that are made before it. So the one
//! which is refused, always of the same number, is each of the section in turn. What is printed says whether one
//! was refused, and that each call kept its promises: that a refused call changes nothing, that it returns with
//! memory, when it is made again, the same as with ample memory, and that a call which takes none does not want any.
//! Else the run stops like a failed check.

mod stop;

use std::alloc::Global;
use std::io::Read;
use std::process::ExitCode;
pub use stop::{Run, Stop, kept};

/// A run with the allocations made that come before the calls, and the number of the section.
pub fn started(rt: &HostRuntime) -> (Run, u32) {
    let [section, before] = numbers_in(rt);
    allocate(rt.alloc(), before);
    (Run::new(rt.alloc()), section)
}

/// The numbers that standard input holds in decimal digits, with a space between.
fn numbers_in(rt: &HostRuntime) -> [u32; 2] {
    let mut text = [0u8; 16];
    let len = rt.reader().read(&mut text).unwrap_or(0);
    let mut numbers = [0, 0];
    let mut offset = 0;
    for byte in text.iter().take(len) {
        match *byte {
            b' ' => offset = 1,
            b'0'..=b'9' => numbers[offset] = numbers[offset] * 10 + u32::from(*byte - b'0'),
            _ => {}
        }
    }
    numbers
}

/// Makes allocations, and keeps none.
fn allocate(alloc: Global, count: u32) {
    for _ in 0..count {
        let _ = Vec::<u8>::with_capacity(alloc, 1);
    }
}

/// Prints how a run ended: whether memory was refused, or which promise was broken.
pub fn reported(rt: &HostRuntime, run: &Run, answer: Result<(), Stop>) -> ExitCode {
    match answer {
        Ok(()) => {
            let memory = if run.was_refused() {
                "refused"
            } else {
                "ample"
            };
            let _ = println!(rt; "{memory}");
            ExitCode::SUCCESS
        }
        Err(Stop::Memory) => stopped(rt, "no memory is wanted where none is refused"),
        Err(Stop::Broken(promise)) => stopped(rt, promise),
    }
}

/// Prints a promise that was broken, and stops the run like a failed check.
fn stopped(rt: &HostRuntime, promise: &str) -> ExitCode {
    let _ = eprintln!(rt; "broken: {promise}");
    let status: Option<ExitCode> = None;
    status.unwrap()
}
