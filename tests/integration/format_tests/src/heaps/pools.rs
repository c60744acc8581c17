use crate::heaps::GUIDS;
use heaps::{BlobPool, GuidPool, PoolError, SortedBlobs, SortedGuids, SortedTexts, TextPool};
use std::alloc::Global;
use std::test::Fail;

/// The pool of these blobs, in their order of use.
fn pool_of_blobs(alloc: Global, blobs: &[&[u8]]) -> Result<BlobPool, PoolError> {
    let mut pool = BlobPool::new(alloc);
    for blob in blobs {
        let _index = pool.add(blob)?;
    }
    Ok(pool)
}

/// The pool of these GUIDs, in their order of use, without null.
fn pool_of_guids(alloc: Global, guids: &[Option<[u8; 16]>]) -> Result<GuidPool, PoolError> {
    let mut pool = GuidPool::new(alloc);
    for guid in guids {
        let _index = pool.add(*guid)?;
    }
    Ok(pool)
}

#[test]
fn plans_texts(rt: HostRuntime) -> Result<(), Fail> {
    let pool = TextPool::plan(rt.alloc(), &["a.dll", "b", "a.dll", ""])?;
    assert_eq!(rt; pool.add("a.dll"), 1);
    assert_eq!(rt; pool.add("b"), 7);
    assert_eq!(rt; pool.add(""), 0);
    assert!(rt; pool.bytes() == [0x00, 0x61, 0x2E, 0x64, 0x6C, 0x6C, 0x00, 0x62, 0x00].as_slice());
    let pool = TextPool::plan(rt.alloc(), &["me", "Name", "Game", "ame"])?;
    assert_eq!(rt; pool.add("me"), 3);
    assert_eq!(rt; pool.add("Name"), 1);
    assert_eq!(rt; pool.add("Game"), 6);
    assert_eq!(rt; pool.add("ame"), 2);
    assert!(rt;
        pool.bytes()
            == [
                0x00, 0x4E, 0x61, 0x6D, 0x65, 0x00, 0x47, 0x61, 0x6D, 0x65, 0x00,
            ]
            .as_slice()
    );
    let pool = TextPool::plan(rt.alloc(), &["", ""])?;
    assert!(rt; pool.bytes().is_empty());
    Ok(())
}

#[test]
fn reports_indexes_by_offset(rt: HostRuntime) -> Result<(), Fail> {
    let pool = TextPool::plan(rt.alloc(), &["dll", "", "a.dll", "dll", "b", "a.dll"])?;
    assert!(rt; pool.indexes() == [3, 0, 1, 3, 7, 1].as_slice());
    let pool = TextPool::plan(rt.alloc(), &["me", "Name", "Game", "ame"])?;
    assert!(rt; pool.indexes() == [3, 1, 6, 2].as_slice());
    let pool = TextPool::plan(rt.alloc(), &["", ""])?;
    assert!(rt; pool.indexes() == [0, 0].as_slice());
    Ok(())
}

#[test]
fn lays_out_sorted_texts(rt: HostRuntime) -> Result<(), Fail> {
    let texts = ["dll", "", "a.dll", "dll"];
    let sorted = SortedTexts::sort(rt.alloc(), &texts)?;
    for _ in 0..2 {
        let pool = sorted.lay_out(rt.alloc())?;
        assert!(rt; pool.indexes() == [3, 0, 1, 3].as_slice());
        assert!(rt; pool.bytes() == b"\0a.dll\0".as_slice());
    }
    Ok(())
}

#[test]
fn plans_texts_at_starts(rt: HostRuntime) -> Result<(), Fail> {
    let heap = b"\0Name\0Game\0";
    let pool = TextPool::plan_in(rt.alloc(), heap, &[3, 1, 6, 7, 0, 3, 5, 2])?;
    assert!(rt; pool.indexes() == [3, 1, 6, 2, 0, 3, 0, 2].as_slice());
    assert!(rt; pool.bytes() == heap.as_slice());
    let pool = TextPool::plan_in(rt.alloc(), heap, &[8, 8])?;
    assert!(rt; pool.indexes() == [1, 1].as_slice());
    assert!(rt; pool.bytes() == b"\0me\0".as_slice());
    let pool = TextPool::plan_in(rt.alloc(), b"\0ab\0cab\0ab\0", &[1, 4, 8, 9])?;
    assert!(rt; pool.indexes() == [2, 1, 2, 3].as_slice());
    assert!(rt; pool.bytes() == b"\0cab\0".as_slice());
    let pool = TextPool::plan_in(rt.alloc(), &[], &[0, 0])?;
    assert!(rt; pool.indexes() == [0, 0].as_slice());
    assert!(rt; pool.bytes().is_empty());
    Ok(())
}

/// The next of a sequence of numbers below a limit, from the high bits of a linear congruential generator.
pub fn next_below(state: &mut u64, limit: usize) -> usize {
    *state = state
        .wrapping_mul(6_364_136_223_846_793_005)
        .wrapping_add(1_442_695_040_888_963_407);
    (*state >> 33) as usize % limit
}

/// A strings heap of letters `a` and `b` and of NULs, which begins and ends with a NUL.
fn heap_of_letters(alloc: Global, state: &mut u64) -> Result<Vec<u8>, Fail> {
    let mut heap = vec![in alloc; 0u8]?;
    for _ in 0..next_below(state, 40) {
        heap.push([0, b'a', b'a', b'b'][next_below(state, 4)])?;
    }
    heap.push(0)?;
    Ok(heap)
}

#[test]
fn plans_texts_at_starts_as_the_same_texts(rt: HostRuntime) -> Result<(), Fail> {
    let mut state = 1;
    for _ in 0..400 {
        let heap = heap_of_letters(rt.alloc(), &mut state)?;
        let mut starts = Vec::new(rt.alloc());
        let mut texts = Vec::new(rt.alloc());
        for _ in 0..next_below(&mut state, 12) {
            let start = next_below(&mut state, heap.len()) as u32;
            starts.push(start)?;
            let Ok(text) = heaps::text(&heap, start) else {
                return Err(Fail::from("each start has a text"));
            };
            texts.push(text)?;
        }
        let pool = TextPool::plan_in(rt.alloc(), &heap, &starts)?;
        let same = TextPool::plan(rt.alloc(), &texts)?;
        assert!(rt; pool.bytes() == same.bytes(), "{heap:?} {starts:?}");
        assert!(rt; pool.indexes() == same.indexes(), "{heap:?} {starts:?}");
    }
    Ok(())
}

#[test]
fn lays_out_sorted_blobs(rt: HostRuntime) -> Result<(), Fail> {
    let long = [0; 128];
    let blobs = [
        [0xAA, 0xBB].as_slice(),
        [].as_slice(),
        long.as_slice(),
        [0x01].as_slice(),
        [0xAA, 0xBB].as_slice(),
        [0xBB].as_slice(),
    ];
    let plan = SortedBlobs::sort(rt.alloc(), &blobs)?.lay_out(rt.alloc())?;
    assert!(rt; plan.indexes() == [1, 0, 4, 134, 1, 136].as_slice());
    assert!(rt; plan.bytes().starts_with(&[0x00, 0x02, 0xAA, 0xBB, 0x80, 0x80, 0x00]));
    assert!(rt; plan.bytes().ends_with(&[0x00, 0x01, 0x01, 0x01, 0xBB]));
    assert_eq!(rt; plan.bytes().len(), 138);
    let nothing = [[].as_slice(), [].as_slice()];
    let plan = SortedBlobs::sort(rt.alloc(), &nothing)?.lay_out(rt.alloc())?;
    assert!(rt; plan.bytes().is_empty());
    assert!(rt; plan.indexes() == [0, 0].as_slice());
    Ok(())
}

#[test]
fn lays_out_sorted_guids(rt: HostRuntime) -> Result<(), Fail> {
    let guids = [Some([7; 16]), None, Some([0; 16]), Some([7; 16])];
    let plan = SortedGuids::sort(rt.alloc(), &guids)?.lay_out(rt.alloc())?;
    assert!(rt; plan.indexes() == [1, 0, 2, 1].as_slice());
    assert_eq!(rt; plan.bytes().len(), 32);
    assert!(rt; plan.bytes().starts_with(&[7; 16]));
    assert!(rt; plan.bytes().ends_with(&[0; 16]));
    Ok(())
}

#[test]
fn pools_blobs(rt: HostRuntime) -> Result<(), Fail> {
    let mut pool = BlobPool::new(rt.alloc());
    assert!(rt; pool.bytes().is_empty());
    assert_eq!(rt; pool.add(&[]), Ok(0));
    assert!(rt; pool.bytes().is_empty());
    for (blob, index) in [
        ([0xAA, 0xBB].as_slice(), 1),
        ([].as_slice(), 0),
        ([0; 128].as_slice(), 4),
        ([0x01].as_slice(), 134),
        ([0xAA, 0xBB].as_slice(), 1),
        ([0xBB].as_slice(), 136),
        ([0; 127].as_slice(), 138),
        ([0xCC; 0x4000].as_slice(), 266),
        ([0xDD].as_slice(), 0x4000 + 270),
    ] {
        assert_eq!(rt; pool.add(blob), Ok(index));
    }
    assert!(rt;
        pool.bytes()
            .starts_with(&[0x00, 0x02, 0xAA, 0xBB, 0x80, 0x80, 0x00])
    );
    assert!(rt; pool.bytes().ends_with(&[0xCC, 0x01, 0xDD]));
    assert_eq!(rt; pool.bytes().len(), 0x4000 + 272);
    for (index, blob) in [
        (1, [0xAA, 0xBB].as_slice()),
        (4, [0; 128].as_slice()),
        (266, [0xCC; 0x4000].as_slice()),
    ] {
        assert!(rt; heaps::blob(pool.bytes(), index) == Ok(blob), "at {index}");
    }
    let pool = pool_of_blobs(rt.alloc(), &[&[0xAA, 0xBB], &[], &[0x01], &[0xAA, 0xBB]])?;
    assert!(rt; pool.bytes() == [0x00, 0x02, 0xAA, 0xBB, 0x01, 0x01].as_slice());
    Ok(())
}

#[test]
fn pools_guids(rt: HostRuntime) -> Result<(), Fail> {
    let mut pool = GuidPool::new(rt.alloc());
    assert!(rt; pool.bytes().is_empty());
    assert_eq!(rt; pool.add(None), Ok(0));
    assert!(rt; pool.bytes().is_empty());
    assert_eq!(rt; pool.add(Some([0; 16])), Ok(1));
    assert_eq!(rt; pool.add(Some(GUIDS)), Ok(2));
    assert_eq!(rt; pool.add(Some([0; 16])), Ok(1));
    assert_eq!(rt; pool.add(Some([7; 16])), Ok(3));
    assert_eq!(rt; pool.add(None), Ok(0));
    assert_eq!(rt; pool.bytes().len(), 48);
    assert_eq!(rt; heaps::guid(pool.bytes(), 2), Ok(Some(GUIDS)));
    let pool = pool_of_guids(rt.alloc(), &[Some(GUIDS), None, Some([0; 16]), Some(GUIDS)])?;
    assert_eq!(rt; pool.bytes().len(), 32);
    assert_eq!(rt; heaps::guid(pool.bytes(), 1), Ok(Some(GUIDS)));
    Ok(())
}
