use crate::heaps::pools::next_below;
use heaps::{WindowNames, blob, equal_blobs};
use std::alloc::Global;
use std::test::Fail;

/// A heap that repeats a few bytes, with some of them changed. Each of its first half is the length of a blob.
fn repeating_heap(alloc: Global, state: &mut u64) -> Result<Vec<u8>, Fail> {
    let mut part = Vec::new(alloc);
    for _ in 0..1 + next_below(state, 4) {
        part.push(next_below(state, 100) as u8)?;
    }
    let mut heap = vec![in alloc; 0u8]?;
    for position in 0..200 {
        let byte = part[position % part.len()];
        heap.push(if next_below(state, 80) == 0 { byte / 2 } else { byte })?;
    }
    Ok(heap)
}

/// The indexes at which the blobs of a heap are looked for, many times each.
fn many_indexes(alloc: Global, state: &mut u64) -> Result<Vec<u32>, Fail> {
    let mut indexes = Vec::new(alloc);
    for _ in 0..400 {
        indexes.push(1 + next_below(state, 100) as u32)?;
    }
    Ok(indexes)
}

/// The number of bytes of all blobs with their lengths.
fn entries_len(heap: &[u8], indexes: &[u32]) -> usize {
    let mut len = 0;
    for index in indexes {
        len += heap[*index as usize] as usize + 1;
    }
    len
}

/// The first use of a blob with the same bytes as that at an index, as found by comparing all.
fn first_equal_blob(heap: &[u8], indexes: &[u32], index: u32) -> Option<usize> {
    let found = blob(heap, index);
    indexes.iter().position(|other| *other == index || blob(heap, *other) == found)
}

#[test]
fn finds_equal_blobs_that_overlap(rt: HostRuntime) -> Result<(), Fail> {
    let mut state = 1;
    for _ in 0..100 {
        let heap = repeating_heap(rt.alloc(), &mut state)?;
        let indexes = many_indexes(rt.alloc(), &mut state)?;
        let earlier = equal_blobs(rt.alloc(), &heap, &indexes)?;
        if entries_len(&heap, &indexes) / 64 > heap.len() {
            for use_index in 0..indexes.len() {
                let index = indexes[use_index];
                // Blobs without bytes are left alone: nothing is gained there.
                let first = match heap[index as usize] {
                    0 => Some(use_index),
                    _ => first_equal_blob(&heap, &indexes, index),
                };
                assert!(rt; first == Some(earlier[use_index]), "{heap:?} {indexes:?}");
            }
        }
    }
    Ok(())
}

#[test]
fn finds_equal_blobs_of_two_lengths_in_turn(rt: HostRuntime) -> Result<(), Fail> {
    let mut heap = vec![in rt.alloc(); 0u8]?;
    let mut indexes = Vec::new(rt.alloc());
    for _ in 0..160 {
        heap.extend_from_slice(&[0x80, 0x90, 0x80, 0x91])?;
    }
    // Each index four times.
    for use_index in 0..640 {
        indexes.push(1 + 2 * (use_index % 160))?;
    }
    let earlier = equal_blobs(rt.alloc(), &heap, &indexes)?;
    for use_index in 0..indexes.len() {
        assert!(rt; blob(&heap, indexes[use_index]).is_ok());
        assert_eq!(rt; earlier[use_index], use_index % 2);
    }
    Ok(())
}

#[test]
fn leaves_other_blobs_alone(rt: HostRuntime) -> Result<(), Fail> {
    // Equal blobs that do not overlap, and the blob at index 0.
    let heap = [0, 3, 1, 2, 3, 3, 1, 2, 3];
    let earlier = equal_blobs(rt.alloc(), &heap, &[1, 0, 5, 0, 1])?;
    assert!(rt; earlier.as_slice() == [0, 1, 2, 3, 4].as_slice());
    let repeated = [9; 64];
    let earlier = equal_blobs(rt.alloc(), &repeated, &[0; 64])?;
    for use_index in 0..64 {
        assert_eq!(rt; earlier[use_index], use_index);
    }
    let earlier = equal_blobs(rt.alloc(), &[], &[7, 7])?;
    assert!(rt; earlier.as_slice() == [0, 1].as_slice());
    Ok(())
}

/// Whether the bytes of a heap from two positions on are equal.
fn are_equal_parts(heap: &[u8], first: usize, second: usize, len: usize) -> bool {
    heap[first..first + len] == heap[second..second + len]
}

#[test]
fn finds_equal_parts_by_windows(rt: HostRuntime) -> Result<(), Fail> {
    let mut state = 1;
    for least in 0..20 {
        let heap = repeating_heap(rt.alloc(), &mut state)?;
        let named = WindowNames::of_heap(rt.alloc(), &heap, least)?;
        assert_eq!(rt; named.width, least.max(1).next_power_of_two());
        for _ in 0..400 {
            let first = next_below(&mut state, 100);
            let second = next_below(&mut state, 100);
            let len = next_below(&mut state, 100);
            let is_found = len >= named.width as usize && are_equal_parts(&heap, first, second, len);
            assert!(rt; named.are_same(first, second, len) == is_found, "{heap:?} {first} {second} {len}");
        }
    }
    Ok(())
}

#[test]
fn finds_no_equal_parts_that_are_short_or_not_in_the_heap(rt: HostRuntime) -> Result<(), Fail> {
    let named = WindowNames::of_heap(rt.alloc(), &[7; 32], 4)?;
    assert!(rt; named.are_same(0, 1, 31) && named.are_same(0, 1, 4));
    assert!(rt; !named.are_same(0, 1, 3) && !named.are_same(0, 1, 32) && !named.are_same(33, 0, 4));
    assert!(rt; !named.are_same(usize::MAX, 0, 4) && !named.are_same(0, 1, usize::MAX));
    assert!(rt; !WindowNames::new(rt.alloc()).are_same(0, 0, 0));
    Ok(())
}
