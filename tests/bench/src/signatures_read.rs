//! Signatures of the usual shapes, and how long they take to recognise.
use crate::next;
use anyhow::Result;
use sig_recogniser::{SigKind, recognise};
use std::alloc::{AllocError, Global};
use std::time::Instant;

/// A signature, and what it is of.
#[derive(Drop)]
struct Encoded {
    bytes: Vec<u8>,
    kind: SigKind,
}

/// A type: simple, a class or a value type, a vector or a generic instance.
fn put_type(bytes: &mut Vec<u8>, seed: &mut u64) -> Result<(), AllocError> {
    let index = (next(seed) % 16) as u8 * 4;
    match next(seed) % 8 {
        0 | 1 => bytes.push(0x0E)?,
        2 | 3 => bytes.push(0x08)?,
        4 => bytes.push(0x1C)?,
        5 => bytes.extend_from_slice(&[0x12, index + 5])?,
        6 => bytes.extend_from_slice(&[0x1D, 0x05])?,
        _ => bytes.extend_from_slice(&[0x15, 0x12, 0x80, index + 4, 1, 0x13, 0])?,
    }
    Ok(())
}

/// Types, one after the other.
fn put_types(bytes: &mut Vec<u8>, seed: &mut u64, count: u8) -> Result<(), AllocError> {
    for _ in 0..count {
        put_type(bytes, seed)?;
    }
    Ok(())
}

/// A field, a method of this or another module, a property or some locals.
fn random_signature(alloc: Global, seed: &mut u64) -> Result<Encoded, AllocError> {
    let mut bytes = Vec::new(alloc);
    let count = (next(seed) % 6) as u8;
    let (kind, first, counted, types) = match next(seed) % 8 {
        0 | 1 => (SigKind::Field, 0x06, None, 1),
        2 => (SigKind::StandAlone, 0x07, Some(count), count),
        3 => (SigKind::Property, 0x28, Some(0), 1),
        4 => (SigKind::MemberRef, 0x20, Some(count), count + 1),
        _ => (SigKind::MethodDef, 0x20, Some(count), count + 1),
    };
    bytes.push(first)?;
    if let Some(count) = counted {
        bytes.push(count)?;
    }
    put_types(&mut bytes, seed, types)?;
    Ok(Encoded { bytes, kind })
}

fn random_signatures(alloc: Global, count: usize) -> Result<Vec<Encoded>, AllocError> {
    let mut seed = 3u64;
    let mut signatures = Vec::new(alloc);
    for _ in 0..count {
        signatures.push(random_signature(alloc, &mut seed)?)?;
    }
    Ok(signatures)
}

/// The sum of bytes, read one by one.
fn sum(bytes: &[u8], sum: u64) -> u64 {
    let mut sum = sum;
    for byte in bytes {
        sum = sum.rotate_left(1).wrapping_add(u64::from(*byte));
    }
    sum
}

/// How many microseconds it takes to read the bytes of all signatures.
fn time_reading(rt: &HostRuntime, signatures: &[Encoded]) -> Result<(u128, u64)> {
    let start = Instant::now(rt)?;
    let mut total = 0u64;
    for signature in signatures {
        total = sum(&signature.bytes, total);
    }
    Ok((start.elapsed(rt)?.as_micros(), total))
}

/// How many microseconds it takes to recognise all signatures; `None` where one is not.
fn time_recognising(rt: &HostRuntime, signatures: &[Encoded]) -> Result<Option<u128>> {
    let start = Instant::now(rt)?;
    for signature in signatures {
        if !recognise(&signature.bytes, signature.kind) {
            return Ok(None);
        }
    }
    Ok(Some(start.elapsed(rt)?.as_micros()))
}

/// Prints how long signatures take to recognise, against the reading of their bytes.
pub(crate) fn report_signatures(rt: &HostRuntime, alloc: Global) -> Result<()> {
    let signatures = random_signatures(alloc, 100_000)?;
    let (read, total) = time_reading(rt, &signatures)?;
    let Some(recognised) = time_recognising(rt, &signatures)? else {
        println!(rt; "100000 signatures: one is not recognised")?;
        return Ok(());
    };
    let ratio = recognised.saturating_mul(100) / read.max(1);
    println!(rt;
        "100000 signatures: recognised in {ratio} % of the time of reading them, {read} us, {total}"
    )?;
    Ok(())
}
