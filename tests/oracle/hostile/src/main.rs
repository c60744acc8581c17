//! Roots and files as strangers could make them, always the same for a seed: models of all 38 tables, encoded as no
//! writer encodes them, and each with changes near the offsets that mean something.
//!
//! What the library answers is held against the standard, read a second time, plainly and without the library's
//! code: the fault, or the cells, the look-ups and the canonical root. The words are a seed, how many cases, and the
//! first case. A case that fails is printed with its number, and its bytes if they are few. The last line counts.
#![tactic(auto)]

mod buckets;
mod changed;
mod judged;
mod judged_cells;
mod judged_images;
mod judged_lookups;
mod judged_signatures;
mod judged_tables;
mod made_cells;
mod made_image;
mod made_model;
mod made_signatures;
mod numbers;
mod plain_image;
mod plain_links;
mod plain_model;
mod plain_pools;
mod plain_reader;
mod plain_refusal;
mod plain_root;
mod plain_signatures;
mod plain_tables;
mod plain_writer;
mod random;
mod encoded_heap;
mod encoded_root;
mod encoded_tables;
mod standard;

use crate::changed::changed;
use crate::judged::{Stop, Tally, judge_root};
use crate::judged_images::judge_image;
use crate::judged_signatures::judge_signatures;
use crate::judged_tables::{broken_root, judge_tables};
use crate::made_image::made_image;
use crate::made_model::{Shape, made_model};
use crate::plain_model::PlainModel;
use crate::random::Random;
use crate::encoded_root::{EncodedRoot, encoded_root};
use std::alloc::Global;
use std::env;
use std::process::ExitCode;
use std::time::Instant;

/// How many cases are tried if no argument says.
const CASES: u64 = 12;

/// How many bytes of a case that fails are printed at most.
const REPORTED: usize = 4096;

/// How many cases that fail are printed.
const FAILURES: u64 = 20;

/// A case that fails.
#[derive(Drop)]
struct Failed {
    round: u32,
    promise: String,
    bytes: Vec<u8>,
}

fn main(rt: HostRuntime) -> ExitCode {
    let [seed, cases, first] = words(&rt);
    let seed = seed.unwrap_or(1);
    let first = first.unwrap_or(0);
    let start = Instant::now(&rt);
    let mut tally = Tally::new();
    let mut failures = 0u64;
    let cases = cases.unwrap_or(CASES);
    for case in first..first.saturating_add(cases) {
        // If the library stops the program, this line names the case.
        let _ = eprintln!(rt; "case {case}");
        match try_case(rt.alloc(), seed, case, &mut tally) {
            Ok(None) => {}
            Ok(Some(failed)) => {
                failures += 1;
                if failures <= FAILURES {
                    report_failure(&rt, seed, case, &failed);
                }
            }
            Err(_) => {
                let _ = println!(rt; "seed {seed} case {case}: out of memory");
                failures += 1;
            }
        }
    }
    if let Ok(time) = start.and_then(|start| start.elapsed(&rt)) {
        let _ = eprintln!(rt; "{} ms", time.as_millis());
    }
    report(&rt, &tally);
    let _ = println!(rt; "{} passed, {failures} failed", cases - failures);
    ExitCode::from(u8::from(failures > 0))
}

/// The first three arguments, after the program's name, as numbers.
fn words(rt: &HostRuntime) -> [Option<u64>; 3] {
    let mut numbers = [None; 3];
    if let Ok(words) = env::args(rt) {
        for (word, number) in words.skip(1).zip(numbers.iter_mut()) {
            *number = word.as_str().parse().ok();
        }
    }
    numbers
}

fn report_failure(rt: &HostRuntime, seed: u64, case: u64, failed: &Failed) {
    let promise = failed.promise.as_str();
    let round = failed.round;
    let len = failed.bytes.len();
    let _ = println!(rt; "seed {seed} case {case} round {round}, {len} bytes: {promise}");
    if len <= REPORTED {
        for byte in failed.bytes.iter() {
            let _ = print!(rt; "{byte:02x}");
        }
        let _ = println!(rt; "");
    }
}

/// Prints what became of the roots.
fn report(rt: &HostRuntime, tally: &Tally) {
    let _ = println!(rt; "loaded {}", tally.loaded);
    let _ = println!(rt;
        "tables made a model {}, refused {}",
        tally.made, tally.unmade
    );
    let _ = println!(rt; "signatures {}", tally.signatures);
    for (code, count) in tally.refused.iter().enumerate() {
        if *count > 0 {
            let _ = println!(rt; "refused as {code} {count}");
        }
    }
}

/// Tries a case: a model, its root and its file, changes of these, and signatures.
fn try_case(
    alloc: Global,
    seed: u64,
    case: u64,
    tally: &mut Tally,
) -> Result<Option<Failed>, Stop> {
    let mut random = Random::new(seed, case);
    let shape = shape_of(case);
    let model = made_model(alloc, &mut random, shape)?;
    let root = encoded_root(alloc, &mut random, &model)?;
    let image = made_image(alloc, &mut random, &model, &root)?;
    let rounds = match shape {
        Shape::Sparse | Shape::Full => 24,
        _ => 3,
    };
    for round in 0..rounds {
        let (bytes, judged) = try_round(alloc, &mut random, round, (&model, &root, &image), tally)?;
        match judged {
            Ok(()) => {}
            Err(Stop::Memory) => return Err(Stop::Memory),
            Err(Stop::Broken(promise)) => {
                return Ok(Some(Failed {
                    round,
                    promise,
                    bytes,
                }));
            }
        }
    }
    Ok(None)
}

/// Tries one thing of a case, and returns its bytes: in the first two rounds the root and the file as they were made.
fn try_round(
    alloc: Global,
    random: &mut Random,
    round: u32,
    made: (&PlainModel, &EncodedRoot, &EncodedRoot),
    tally: &mut Tally,
) -> Result<(Vec<u8>, Result<(), Stop>), Stop> {
    let (model, root, image) = made;
    let mut bytes = match round {
        0 => root.bytes.as_slice().to_vec(alloc)?,
        1 => image.bytes.as_slice().to_vec(alloc)?,
        _ => Vec::new(alloc),
    };
    let judged = match round {
        0 => judge_root(alloc, random, bytes.as_slice(), Some(model), tally),
        1 => judge_image(alloc, bytes.as_slice(), Some(model), tally),
        _ if round % 6 == 2 => judge_tables(alloc, random, model, tally),
        _ if round % 6 == 3 => judge_signatures(alloc, random, tally),
        _ if round % 6 == 4 => {
            bytes = changed(alloc, random, image)?;
            judge_image(alloc, bytes.as_slice(), None, tally)
        }
        _ => {
            bytes = match round % 6 {
                0 => broken_root(alloc, random, model)?,
                _ => changed(alloc, random, root)?,
            };
            judge_root(alloc, random, bytes.as_slice(), None, tally)
        }
    };
    Ok((bytes, judged))
}

/// What the model of a case is like: mostly small.
fn shape_of(case: u64) -> Shape {
    match case % 48 {
        5 | 17 | 29 => Shape::Wide,
        11 | 23 => Shape::Long,
        35 => Shape::Longest,
        47 => Shape::ManyGuids,
        other if other % 2 == 0 => Shape::Full,
        _ => Shape::Sparse,
    }
}
