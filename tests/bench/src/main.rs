//! Times what has to be fast on hostile input. The argument `run` starts it. Each line gives a time as a
//! ratio to another of the same run, so that the lines of two machines can be compared.
#![tactic(auto)]

ghost use Rattle.std.specs.Prelude.{◌≡◌, true, All};
ghost use Rattle.heap_entries.specs.Entries.{HasNoNul};
ghost use Rattle.heap_pools.specs.Uses.{bytes_of};

mod hostile_roots;
mod rows_opened;
mod signatures_read;

use crate::hostile_roots::report_hostile;
use crate::rows_opened::report_rows;
use crate::signatures_read::report_signatures;
use anyhow::Result;
use heaps::TextPool;
use std::alloc::{AllocError, Global};
use std::env;
use std::time::Instant;

/// Whether a text has no NUL.
fn is_plain(text: &str) -> bool
    ensures { result ≡ true → HasNoNul text.now }
{
    let bytes = text.as_bytes();
    for byte in bytes {
        if *byte == 0 {
            return false;
        }
    }
    true
}

/// Whether no text has a NUL.
fn are_plain(texts: &[&str]) -> bool
    ensures { result ≡ true → All HasNoNul (bytes_of texts.now) }
{
    for text in texts {
        if !is_plain(text) {
            return false;
        }
    }
    true
}

/// How many microseconds the planning of a strings heap takes, and then the indexes of all texts.
fn time_plan(rt: &HostRuntime, alloc: Global, texts: &[&str]) -> Result<Option<(u128, u128)>> {
    if !are_plain(texts) {
        return Ok(None);
    }
    let start = Instant::now(rt)?;
    let pool = match TextPool::plan(alloc, texts) {
        Ok(pool) => pool,
        Err(_) => return Ok(None),
    };
    let planned = start.elapsed(rt)?;
    let start = Instant::now(rt)?;
    let mut sum = 0u64;
    for text in texts {
        sum = sum.wrapping_add(u64::from(pool.add(text)));
    }
    let added = start.elapsed(rt)?;
    if sum == u64::MAX {
        return Ok(None);
    }
    Ok(Some((planned.as_micros(), added.as_micros())))
}

/// How many microseconds the sorting of texts takes.
fn time_sort(rt: &HostRuntime, alloc: Global, texts: &[&str]) -> Result<u128> {
    let mut sorted = texts.to_vec(alloc)?;
    let start = Instant::now(rt)?;
    sorted.sort()?;
    Ok(start.elapsed(rt)?.as_micros())
}

/// Prints the times of some texts.
fn report(rt: &HostRuntime, alloc: Global, name: &str, texts: &[&str]) -> Result<()> {
    let sorted = time_sort(rt, alloc, texts)?.max(1);
    let Some((planned, added)) = time_plan(rt, alloc, texts)? else {
        println!(rt; "{name}: no heap")?;
        return Ok(());
    };
    let (plan, add) = (
        planned.saturating_mul(100) / sorted,
        added.saturating_mul(100) / sorted,
    );
    println!(rt; "{name}: sort {sorted} us, plan {plan} % of it, all indexes {add} % of it")?;
    Ok(())
}

/// The next number of a sequence without a pattern.
pub(crate) fn next(seed: &mut u64) -> u64 {
    *seed = seed
        .wrapping_mul(6364136223846793005)
        .wrapping_add(1442695040888963407);
    *seed >> 33
}

const LETTERS: &[u8; 32] = b"abcdefghijklmnopqrstuvwxyzABCDEF";

/// A text of letters, of which the mask leaves the first few.
fn random_text(alloc: Global, seed: &mut u64, len: usize, mask: u64) -> Result<String, AllocError> {
    let mut text = String::new(alloc);
    for _ in 0..len {
        let letter = (next(seed) & mask & 31) as usize;
        text.push(LETTERS[letter % 32] as char)?;
    }
    Ok(text)
}

fn random_texts(
    alloc: Global,
    count: usize,
    len: usize,
    mask: u64,
) -> Result<Vec<String>, AllocError> {
    let mut seed = 1u64;
    let mut texts = Vec::new(alloc);
    for _ in 0..count {
        let text = random_text(alloc, &mut seed, len, mask)?;
        texts.push(text)?;
    }
    Ok(texts)
}

/// This number of texts of letters.
fn report_random(
    rt: &HostRuntime,
    alloc: Global,
    name: &str,
    count: usize,
    len: usize,
    mask: u64,
) -> Result<()> {
    let texts = random_texts(alloc, count, len, mask)?;
    let mut borrowed = Vec::new(alloc);
    for text in &texts {
        borrowed.push(text.as_str())?;
    }
    report(rt, alloc, name, &borrowed)
}

/// All endings of one text.
fn report_endings(rt: &HostRuntime, alloc: Global, name: &str, mask: u64) -> Result<()> {
    let mut seed = 7u64;
    let long = random_text(alloc, &mut seed, 7000, mask)?;
    let mut endings = Vec::new(alloc);
    for index in 0..4000usize {
        match long.as_str().get(index..) {
            Some(text) => endings.push(text)?,
            None => return Ok(()),
        }
    }
    report(rt, alloc, name, &endings)
}

fn main(rt: HostRuntime) -> Result<()> {
    let words: Vec<String> = env::args(&rt)?.collect(rt.alloc())?;
    if !words.iter().any(|word| word.as_str() == "run") {
        println!(rt; "usage: bench run")?;
        return Ok(());
    }
    let alloc = rt.alloc();
    report_endings(&rt, alloc, "4000 endings of one text", 31)?;
    report_endings(&rt, alloc, "4000 endings of one letter", 0)?;
    report_random(&rt, alloc, "100000 texts of 20 letters", 100_000, 20, 31)?;
    report_random(
        &rt,
        alloc,
        "100000 texts of 20, two letters",
        100_000,
        20,
        1,
    )?;
    report_random(&rt, alloc, "100000 the same of 20", 100_000, 20, 0)?;
    report_random(&rt, alloc, "1000 the same of 7000", 1000, 7000, 0)?;
    report_rows(&rt, alloc)?;
    report_signatures(&rt, alloc)?;
    report_hostile(&rt, alloc)
}
