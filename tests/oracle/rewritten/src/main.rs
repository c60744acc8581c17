//! Loads a file or a bare root, writes its canonical root, and loads and writes that again. The models have to be
//! equal, and the two roots the same bytes; and the tables of the model, copied cell by cell, have to make an equal
//! model. The same holds of each prefix of a small file that loads, and of it with each byte 00 or FF.
#![tactic(auto)]

mod copied;
mod judged;

use crate::judged::judged;
use std::process::ExitCode;
use std::{env, fs};

fn main(rt: HostRuntime) -> ExitCode {
    let Ok(words) = env::args(&rt) else {
        return ExitCode::from(2);
    };
    let Some(name) = words.last() else {
        return ExitCode::from(2);
    };
    let Ok(bytes) = fs::read(&rt, name.as_str()) else {
        return ExitCode::from(3);
    };
    match judged(rt.alloc(), &bytes) {
        Ok(()) => {
            let _ = println!(rt; "the same");
            ExitCode::SUCCESS
        }
        Err(differs) => {
            let _ = println!(rt; "{differs}");
            ExitCode::from(1)
        }
    }
}
