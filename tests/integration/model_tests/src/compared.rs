//! Tests of comparison: blobs of two roots that overlap are compared, until their heaps are named. What differs is then
//! what differs when each two blobs are read (II.24.2.4).

use model::{Difference, differences, open_root};
use sample_roots::RootBuilder;
use schema::TableId;
use std::alloc::{AllocError, Global};
use std::test::Fail;

/// The number of rows of AssemblyRef, and of two bytes in a blob: 800 bytes, whose packed length is 83 20.
const COUNT: u16 = 400;

/// A heap of these bytes, and then the packed length of a blob again and again: twice the bytes of a blob.
fn heap_of(alloc: Global, first: &[u8], last: &[u8]) -> Result<Vec<u8>, AllocError> {
    let mut heap = Vec::from_slice(alloc, first)?;
    for _ in 0..COUNT * 2 {
        heap.extend_from_slice(&[0x83, 0x20])?;
    }
    heap.extend_from_slice(last)?;
    Ok(heap)
}

/// A root of references to assemblies whose hash values begin one after another from an index on, and of files whose hash
/// values are at the indexes.
fn root_of(alloc: Global, heap: &[u8], from: u16, files: &[u16]) -> Result<Vec<u8>, AllocError> {
    let mut root = RootBuilder::new(alloc);
    for number in 0..COUNT {
        let [low, high] = (from + 2 * number).to_le_bytes();
        root.row(0x23, &[0, 0, 0, 0, 0, 0, 0, 0, 0, 0, 0, 0, 0, 0, 1, 0, 0, 0, low, high])?;
    }
    for index in files {
        let [low, high] = index.to_le_bytes();
        root.row(0x26, &[0, 0, 0, 0, 1, 0, low, high])?;
    }
    root.heap("#Strings", b"\0a\0")?;
    root.heap("#Blob", heap)?;
    root.finish()
}

/// The rows of File whose hash values differ, if these are at pairs of indexes. Nothing else may differ.
fn rows_that_differ(alloc: Global, pairs: &[(u16, u16)]) -> Result<Option<Vec<u32>>, AllocError> {
    let mut left_files = Vec::new(alloc);
    let mut right_files = Vec::new(alloc);
    for (left, right) in pairs {
        left_files.push(*left)?;
        right_files.push(*right)?;
    }
    // In the right heap the first blob has also a packed length of four bytes, at 4, and the last bytes are others.
    let left_heap = heap_of(alloc, &[0; 4], &[])?;
    let right_heap = heap_of(alloc, &[0, 0, 0, 0, 0xC0, 0, 3, 0x20], b"ab\0\0")?;
    let left = root_of(alloc, &left_heap, 4, &left_files)?;
    let right = root_of(alloc, &right_heap, 8, &right_files)?;
    let (Ok(left), Ok(right)) = (open_root(&left), open_root(&right)) else {
        return Ok(None);
    };
    let mut rows = Vec::new(alloc);
    for difference in differences(alloc, &left, &right, 100)? {
        match difference {
            Difference::Cell { table: TableId::File, row, cell_index: 2 } => rows.push(row)?,
            _ => return Ok(None),
        }
    }
    Ok(Some(rows))
}

#[test]
fn blobs_that_overlap_are_compared(rt: HostRuntime) -> Result<(), Fail> {
    let last = 4 + 2 * (COUNT - 1);
    let pairs = [
        // Equal blobs, of which the last one ends where the left heap does.
        (4, 8), (4, 10), (last, 8), (last, last + 4),
        // With packed lengths of two forms.
        (4, 4), (last, 4),
        // Shorter ones, between the others.
        (5, 9), (7, 9),
        // Empty ones.
        (0, 0), (0, 1), (1, 0), (2, 3),
        // The last bytes differ; the lengths differ; one is empty.
        (4, last + 6), (last, last + 6), (4, 9), (5, 8), (0, 8), (4, 0), (4, 1), (1, 8),
    ];
    let rows = rows_that_differ(rt.alloc(), &pairs)?;
    assert!(rt; rows.is_some_and(|rows| rows.as_slice() == [13, 14, 15, 16, 17, 18, 19, 20].as_slice()));
    Ok(())
}
