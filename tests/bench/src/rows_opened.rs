//! Roots of many rows, and how long they take to open.
use anyhow::Result;
use opening::open_root;
use std::alloc::{AllocError, Global};
use std::time::Instant;

/// The root up to the size of its table stream, which is at 64.
const ROOT: &[u8] = b"BSJB\x01\0\x01\0\0\0\0\0\x04\0\0\0v\0\0\0\0\0\x02\0\x40\0\0\0";

/// The rest of the headers, and the texts.
const TEXTS: &[u8] = b"#~\0\0\x38\0\0\0\x08\0\0\0#Strings\0\0\0\0\0abcdef\0";

/// The header of a table stream that holds rows of TypeRef, up to their count.
const TABLES: &[u8] = b"\0\0\0\0\x02\0\0\x01\x02\0\0\0\0\0\0\0\0\xFA\x01\x33\0\x16\0\0";

/// A root of this number of rows of TypeRef, each without a scope and with a name (II.22.38).
fn root_of(alloc: Global, count: u32) -> Result<Vec<u8>, AllocError> {
    let scope: &[u8] = if count < 0x4000 { b"\0\0" } else { b"\0\0\0\0" };
    let width = if count < 0x4000 { 6 } else { 8 };
    let size = count.wrapping_mul(width).wrapping_add(28);
    let mut root = Vec::new(alloc);
    root.extend_from_slice(ROOT)?;
    root.extend_from_slice(&size.to_le_bytes())?;
    root.extend_from_slice(TEXTS)?;
    root.extend_from_slice(TABLES)?;
    root.extend_from_slice(&count.to_le_bytes())?;
    for row in 0..count {
        root.extend_from_slice(scope)?;
        root.extend_from_slice(&[(row % 6) as u8 + 1, 0, 0, 0])?;
    }
    Ok(root)
}

/// How many microseconds it takes to open a root of `count` rows `times` times; `None` if it has
/// a fault.
fn time_open(rt: &HostRuntime, alloc: Global, count: u32, times: u32) -> Result<Option<u128>> {
    let root = root_of(alloc, count)?;
    let start = Instant::now(rt)?;
    for _ in 0..times {
        if open_root(&root).is_err() {
            return Ok(None);
        }
    }
    Ok(Some(start.elapsed(rt)?.as_micros()))
}

/// Prints how long a row takes to open among many rows, against one among few.
pub(crate) fn report_rows(rt: &HostRuntime, alloc: Global) -> Result<()> {
    let few = time_open(rt, alloc, 10_000, 100)?;
    let many = time_open(rt, alloc, 1_000_000, 1)?;
    let (Some(few), Some(many)) = (few, many) else {
        println!(rt; "rows of TypeRef: no root")?;
        return Ok(());
    };
    let ratio = many.saturating_mul(100) / few.max(1);
    println!(rt;
        "1000000 rows of TypeRef: opened in {ratio} % of the time of 100 times 10000, {few} us"
    )?;
    Ok(())
}
