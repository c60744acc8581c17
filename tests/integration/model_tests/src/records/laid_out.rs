use std::alloc::Global;
use std::test::Fail;

/// Appends the lowest bytes of a number.
pub fn put(bytes: &mut Vec<u8>, number: usize, width: usize) -> Result<(), Fail> {
    for byte in number.to_le_bytes().iter().take(width) {
        bytes.push(*byte)?;
    }
    Ok(())
}

/// Fills bytes with zeros to a multiple of four.
fn padding(bytes: &mut Vec<u8>) -> Result<(), Fail> {
    for _ in 0..(4 - bytes.len() % 4) % 4 {
        bytes.push(0)?;
    }
    Ok(())
}

/// A table stream (II.24.2.6): its header, the counts of tables by their numbers, in order, and the rows. All
/// indexes have two bytes, and no table is said to be in order.
fn table_stream(alloc: Global, counts: &[(u8, u32)], rows: &[u8]) -> Result<Vec<u8>, Fail> {
    let mut bytes = Vec::from_slice(alloc, b"\0\0\0\0\x02\0\0\x01".as_slice())?;
    let mut valid = 0usize;
    for (table, _) in counts {
        valid |= 1usize.wrapping_shl(*table as u32);
    }
    put(&mut bytes, valid, 8)?;
    put(&mut bytes, 0, 8)?;
    for (_, count) in counts {
        put(&mut bytes, *count as usize, 4)?;
    }
    bytes.extend_from_slice(rows)?;
    Ok(bytes)
}

/// A root (II.24.2.1) of some rows and heaps.
pub fn root_of(
    alloc: Global,
    counts: &[(u8, u32)],
    rows: &[u8],
    heaps: &[(&[u8], &[u8])],
) -> Result<Vec<u8>, Fail> {
    let mut root = Vec::from_slice(
        alloc,
        b"BSJB\x01\0\x01\0\0\0\0\0\x0C\0\0\0v4.0.30319\0\0\0\0".as_slice(),
    )?;
    put(&mut root, heaps.len().saturating_add(1), 2)?;
    let mut offset = root.len().saturating_add(12);
    for (name, _) in heaps {
        offset = offset.saturating_add(8).saturating_add(name.len());
    }
    let mut streams = table_stream(alloc, counts, rows)?;
    padding(&mut streams)?;
    put(&mut root, offset, 4)?;
    put(&mut root, streams.len(), 4)?;
    root.extend_from_slice(b"#~\0\0".as_slice())?;
    for (name, heap) in heaps {
        put(&mut root, offset.saturating_add(streams.len()), 4)?;
        let before = streams.len();
        streams.extend_from_slice(heap)?;
        padding(&mut streams)?;
        put(&mut root, streams.len().saturating_sub(before), 4)?;
        root.extend_from_slice(name)?;
    }
    root.extend_from_slice(streams.as_slice())?;
    Ok(root)
}

/// The names of heaps, zero-padded to a multiple of four.
pub const STRINGS: &[u8] = b"#Strings\0\0\0\0";

pub const BLOB: &[u8] = b"#Blob\0\0\0";

pub const GUID: &[u8] = b"#GUID\0\0\0";
