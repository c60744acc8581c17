//! Roots that strangers could make to keep a reader busy, and how long they take to open for each byte.
use anyhow::Result;
use opening::{TableId, open_root};
use std::alloc::{AllocError, Global};
use std::time::Instant;

/// The root up to the headers of its streams, of which there are three.
const ROOT: &[u8] = b"BSJB\x01\0\x01\0\0\0\0\0\x04\0\0\0v\0\0\0\0\0\x03\0";

/// Where the first stream stands.
const FIRST: u32 = 72;

/// A table stream up to the tables that it has: texts and blobs have indexes of four bytes (II.24.2.6).
const TABLES: &[u8] = b"\0\0\0\0\x02\0\x05\x01";

/// A length as a number of four bytes; the greatest one where it is longer.
fn length_of(bytes: &[u8]) -> u32 {
    bytes.len().min(0xFFFF_FFFF) as u32
}

/// Puts the header of a stream, whose name is padded. Returns the offset of the next header.
fn put_header(root: &mut Vec<u8>, at: u32, stream: &[u8], name: &[u8]) -> Result<u32, AllocError> {
    root.extend_from_slice(&at.to_le_bytes())?;
    root.extend_from_slice(&length_of(stream).to_le_bytes())?;
    root.extend_from_slice(name)?;
    Ok(at.wrapping_add(length_of(stream)))
}

/// The root of a table stream, texts and blobs.
fn root_of(
    alloc: Global,
    tables: &[u8],
    texts: &[u8],
    blobs: &[u8],
) -> Result<Vec<u8>, AllocError> {
    let mut root = Vec::new(alloc);
    root.extend_from_slice(ROOT)?;
    let at = put_header(&mut root, FIRST, tables, b"#~\0\0")?;
    let at = put_header(&mut root, at, texts, b"#Strings\0\0\0\0")?;
    put_header(&mut root, at, blobs, b"#Blob\0\0\0")?;
    root.extend_from_slice(tables)?;
    root.extend_from_slice(texts)?;
    root.extend_from_slice(blobs)?;
    Ok(root)
}

/// A table stream of one table with this number of rows, without the rows.
fn table_of(alloc: Global, table: TableId, count: u32) -> Result<Vec<u8>, AllocError> {
    let mut tables = Vec::new(alloc);
    tables.extend_from_slice(TABLES)?;
    tables.extend_from_slice(&(1u64 << (table.number() % 64)).to_le_bytes())?;
    tables.extend_from_slice(&[0; 8])?;
    tables.extend_from_slice(&count.to_le_bytes())?;
    Ok(tables)
}

/// A packed number of four bytes (II.23.2).
fn put_packed(bytes: &mut Vec<u8>, number: u32) -> Result<(), AllocError> {
    bytes.extend_from_slice(&(0xC000_0000 | number & 0x1FFF_FFFF).to_be_bytes())?;
    Ok(())
}

/// A blob that encodes this number of local variables.
fn put_locals(blobs: &mut Vec<u8>, count: u32) -> Result<(), AllocError> {
    put_packed(blobs, count.wrapping_add(5))?;
    blobs.push(0x07)?;
    put_packed(blobs, count)?;
    for _ in 0..count {
        blobs.push(0x08)?;
    }
    Ok(())
}

/// Rows that name two long signatures in turn.
fn two_signatures(alloc: Global, size: u32) -> Result<Vec<u8>, AllocError> {
    let mut tables = table_of(alloc, TableId::StandAloneSig, size)?;
    let mut blobs = vec![in alloc; 0u8; 1]?;
    put_locals(&mut blobs, size)?;
    let second = length_of(&blobs);
    put_locals(&mut blobs, size)?;
    for row in 0..size {
        let blob = if row % 2 == 0 { 1 } else { second };
        tables.extend_from_slice(&blob.to_le_bytes())?;
    }
    root_of(alloc, &tables, b"\0", &blobs)
}

/// Blobs that begin at the indexes of modifiers inside one another: each index is a blob's length too, and
/// names a row.
fn overlapping_blobs(alloc: Global, size: u32) -> Result<Vec<u8>, AllocError> {
    let mut tables = table_of(alloc, TableId::TypeSpec, size.wrapping_mul(2))?;
    let mut blobs = vec![in alloc; 0u8; 1]?;
    for following in (0..size).rev() {
        blobs.push(0x20)?;
        tables.extend_from_slice(&length_of(&blobs).to_le_bytes())?;
        put_packed(&mut blobs, following.wrapping_mul(8).wrapping_add(6))?;
        blobs.extend_from_slice(&[0x20, 0x80, 0x06])?;
    }
    let last = length_of(&blobs).wrapping_sub(7);
    blobs.extend_from_slice(&[0x20, 0x06, 0x08])?;
    for _ in 0..size {
        tables.extend_from_slice(&last.to_le_bytes())?;
    }
    root_of(alloc, &tables, b"\0", &blobs)
}

/// Type references without a scope, whose names are the endings of one text.
fn endings(alloc: Global, size: u32, tail: &[u8]) -> Result<Vec<u8>, AllocError> {
    let mut tables = table_of(alloc, TableId::TypeRef, size)?;
    let mut texts = vec![in alloc; 0u8; 1]?;
    for row in 0..size {
        tables.extend_from_slice(&[0, 0])?;
        tables.extend_from_slice(&row.wrapping_add(1).to_le_bytes())?;
        tables.extend_from_slice(&[0; 4])?;
        texts.push(b'x')?;
    }
    texts.extend_from_slice(tail)?;
    root_of(alloc, &tables, &texts, b"\0")
}

/// Types whose runs of members all start at a null.
fn null_starts(alloc: Global, size: u32) -> Result<Vec<u8>, AllocError> {
    let mut tables = table_of(alloc, TableId::TypeDef, size)?;
    for _ in 0..size {
        tables.extend_from_slice(&[0; 18])?;
    }
    root_of(alloc, &tables, b"\0", b"\0")
}

/// How many nanoseconds it takes for each byte to open a root, and to ask for the fields of each of its types.
fn time_open(rt: &HostRuntime, root: &[u8]) -> Result<Option<u128>> {
    let start = Instant::now(rt)?;
    let Ok(view) = open_root(root) else {
        return Ok(None);
    };
    let mut fields = 0u64;
    for class in 1..view.count(TableId::TypeDef) + 1 {
        fields = fields.wrapping_add(u64::from(view.fields_of(class).end));
    }
    let time = start.elapsed(rt)?.as_nanos();
    if fields == u64::MAX {
        return Ok(None);
    }
    Ok(Some(time / (root.len() as u128).max(1)))
}

/// Prints how long a small root and a large one take for each byte.
fn report(rt: &HostRuntime, name: &str, small: &[u8], large: &[u8]) -> Result<()> {
    let (Some(few), Some(many)) = (time_open(rt, small)?, time_open(rt, large)?) else {
        println!(rt; "{name}: no root")?;
        return Ok(());
    };
    let (small, large) = (small.len(), large.len());
    println!(rt; "{name}: {few} ns a byte of {small}, {many} ns a byte of {large}")?;
    Ok(())
}

/// Prints how long the worst roots that are known take to open, at two sizes each.
pub(crate) fn report_hostile(rt: &HostRuntime, alloc: Global) -> Result<()> {
    let (small, large) = (two_signatures(alloc, 2000)?, two_signatures(alloc, 20_000)?);
    report(rt, "two long signatures in turn", &small, &large)?;
    let (small, large) = (
        overlapping_blobs(alloc, 500)?,
        overlapping_blobs(alloc, 5000)?,
    );
    report(rt, "overlapping blobs of TypeSpec", &small, &large)?;
    let (small, large) = (
        endings(alloc, 1600, b"\0\xFF\0")?,
        endings(alloc, 16_000, b"\0\xFF\0")?,
    );
    report(
        rt,
        "endings of a text where a heap is not UTF-8",
        &small,
        &large,
    )?;
    let (small, large) = (endings(alloc, 1600, b"\0")?, endings(alloc, 16_000, b"\0")?);
    report(rt, "endings of a text", &small, &large)?;
    let (small, large) = (null_starts(alloc, 1600)?, null_starts(alloc, 16_000)?);
    report(
        rt,
        "null starts, and the fields of each type",
        &small,
        &large,
    )
}
