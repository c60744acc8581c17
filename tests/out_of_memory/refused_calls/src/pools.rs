use heaps::{
    BlobPool, GuidPool, HeapPlan, PoolError, SortedBlobs, SortedGuids, TextPool, UserHeap, begin,
    guid_text,
};
use one_refusal::{Run, Stop, kept};
use std::alloc::Global;

/// The planned heap of the texts below: one that another ends with stands in it.
const TEXTS: [u8; 11] = *b"\0Name\0Game\0";

/// What stands before the 128 zeros of the long blob below.
const BLOBS_BEFORE: [u8; 6] = [0x00, 0x02, 0xAA, 0xBB, 0x80, 0x80];

/// What follows them.
const BLOBS_AFTER: [u8; 2] = [0x01, 0x01];

/// The heap of the GUIDs below.
const GUIDS: [u8; 32] = [
    0, 0, 0, 0, 0, 0, 0, 0, 0, 0, 0, 0, 0, 0, 0, 0, 7, 7, 7, 7, 7, 7, 7, 7, 7, 7, 7, 7, 7, 7, 7, 7,
];

/// The filled heap of the user strings below.
const USER_STRINGS: [u8; 16] = [
    0x00, 0x05, 0x41, 0x00, 0x42, 0x00, 0x00, 0x03, 0x27, 0x00, 0x01, 0x01, 0x00, 0x00, 0x00, 0x00,
];

/// That the heap of planned texts is that, planned again where memory was refused.
pub fn texts(run: &Run) -> Result<(), Stop> {
    let texts = ["me", "Name", "Game", "ame"];
    let pool = match TextPool::plan(run.alloc, &texts) {
        Ok(pool) => pool,
        Err(PoolError::Memory) => run.again(TextPool::plan(run.alloc, &texts))?,
        Err(PoolError::Full) => return Err(Stop::Broken("a small heap is not full")),
    };
    let indexes = [
        pool.add("me"),
        pool.add("Name"),
        pool.add("Game"),
        pool.add("ame"),
        pool.add(""),
    ];
    kept(indexes == [3, 1, 6, 2, 0], "the indexes of texts are those")?;
    kept(
        pool.bytes() == TEXTS.as_slice(),
        "the heap of texts is that",
    )
}

/// That the heap of texts at starts in a heap is that, planned again where memory was refused.
pub fn texts_at_starts(run: &Run) -> Result<(), Stop> {
    let starts = [3, 1, 6, 7, 0, 3];
    let pool = match TextPool::plan_in(run.alloc, &TEXTS, &starts) {
        Ok(pool) => pool,
        Err(PoolError::Memory) => run.again(TextPool::plan_in(run.alloc, &TEXTS, &starts))?,
        Err(PoolError::Full) => return Err(Stop::Broken("a small heap is not full")),
    };
    kept(
        pool.indexes() == [3, 1, 6, 2, 0, 3].as_slice(),
        "the indexes of texts at starts are those",
    )?;
    kept(
        pool.bytes() == TEXTS.as_slice(),
        "the heap of texts at starts is that",
    )
}

/// Adds a blob, again where memory was refused.
fn add_blob(run: &Run, pool: &mut BlobPool, blob: &[u8]) -> Result<u32, Stop> {
    let len = pool.bytes().len();
    match pool.add(blob) {
        Ok(index) => Ok(index),
        Err(PoolError::Memory) => {
            kept(pool.bytes().len() == len, "a refused blob is not pooled")?;
            run.again(pool.add(blob))
        }
        Err(PoolError::Full) => Err(Stop::Broken("a small heap is not full")),
    }
}

/// That the heap of pooled blobs is that, each added again where memory was refused.
pub fn blobs(run: &Run) -> Result<(), Stop> {
    let mut pool = BlobPool::new(run.alloc);
    let long = [0u8; 128];
    for (blob, index) in [
        ([0xAA, 0xBB].as_slice(), 1),
        ([].as_slice(), 0),
        (long.as_slice(), 4),
        ([0x01].as_slice(), 134),
        ([0xAA, 0xBB].as_slice(), 1),
    ] {
        let first = add_blob(run, &mut pool, blob)?;
        kept(first == index, "the index of a blob is that")?;
        kept(pool.add(blob).is_ok(), "a pooled blob wants no memory")?;
    }
    let bytes = pool.bytes();
    kept(
        bytes.get(..6) == Some(BLOBS_BEFORE.as_slice())
            && bytes.get(6..134) == Some(long.as_slice())
            && bytes.get(134..) == Some(BLOBS_AFTER.as_slice()),
        "the heap of blobs is that",
    )
}

/// Adds a GUID, again where memory was refused.
fn add_guid(run: &Run, pool: &mut GuidPool, guid: Option<[u8; 16]>) -> Result<u32, Stop> {
    let len = pool.bytes().len();
    match pool.add(guid) {
        Ok(index) => Ok(index),
        Err(PoolError::Memory) => {
            kept(pool.bytes().len() == len, "a refused GUID is not pooled")?;
            run.again(pool.add(guid))
        }
        Err(PoolError::Full) => Err(Stop::Broken("a small heap is not full")),
    }
}

/// That the heap of pooled GUIDs is that, each added again where memory was refused.
pub fn guids(run: &Run) -> Result<(), Stop> {
    let mut pool = GuidPool::new(run.alloc);
    for (guid, index) in [
        (None, 0),
        (Some([0; 16]), 1),
        (Some([7; 16]), 2),
        (Some([0; 16]), 1),
        (None, 0),
    ] {
        let first = add_guid(run, &mut pool, guid)?;
        kept(first == index, "the index of a GUID is that")?;
        kept(pool.add(guid).is_ok(), "a pooled GUID wants no memory")?;
    }
    kept(
        pool.bytes() == GUIDS.as_slice(),
        "the heap of GUIDs is that",
    )
}

/// The plan of a heap of blobs.
fn plan_of_blobs(alloc: Global, blobs: &[&[u8]]) -> Result<HeapPlan, PoolError> {
    SortedBlobs::sort(alloc, blobs)?.lay_out(alloc)
}

/// That the planned heap of the same blobs is that, planned again where memory was refused.
pub fn planned_blobs(run: &Run) -> Result<(), Stop> {
    let long = [0u8; 128];
    let blobs = [
        [0xAA, 0xBB].as_slice(),
        [].as_slice(),
        long.as_slice(),
        [0x01].as_slice(),
        [0xAA, 0xBB].as_slice(),
    ];
    let plan = match plan_of_blobs(run.alloc, &blobs) {
        Ok(plan) => plan,
        Err(PoolError::Memory) => run.again(plan_of_blobs(run.alloc, &blobs))?,
        Err(PoolError::Full) => return Err(Stop::Broken("a small heap is not full")),
    };
    kept(
        plan.indexes() == [1, 0, 4, 134, 1].as_slice(),
        "the indexes of planned blobs are those",
    )?;
    let bytes = plan.bytes();
    kept(
        bytes.get(..6) == Some(BLOBS_BEFORE.as_slice())
            && bytes.get(6..134) == Some(long.as_slice())
            && bytes.get(134..) == Some(BLOBS_AFTER.as_slice()),
        "the planned heap of blobs is that",
    )
}

/// The plan of a heap of GUIDs.
fn plan_of_guids(alloc: Global, guids: &[Option<[u8; 16]>]) -> Result<HeapPlan, PoolError> {
    SortedGuids::sort(alloc, guids)?.lay_out(alloc)
}

/// That the planned heap of the same GUIDs is that, planned again where memory was refused.
pub fn planned_guids(run: &Run) -> Result<(), Stop> {
    let guids = [None, Some([0; 16]), Some([7; 16]), Some([0; 16]), None];
    let plan = match plan_of_guids(run.alloc, &guids) {
        Ok(plan) => plan,
        Err(PoolError::Memory) => run.again(plan_of_guids(run.alloc, &guids))?,
        Err(PoolError::Full) => return Err(Stop::Broken("a small heap is not full")),
    };
    kept(
        plan.indexes() == [0, 1, 2, 1, 0].as_slice(),
        "the indexes of planned GUIDs are those",
    )?;
    kept(
        plan.bytes() == GUIDS.as_slice(),
        "the planned heap of GUIDs is that",
    )
}

/// That the filled heap of pushed user strings is that, each pushed again where memory was refused.
pub fn user_strings(run: &Run) -> Result<(), Stop> {
    let mut heap = UserHeap::new(run.alloc);
    for (units, offset) in [
        ([0x41, 0x42].as_slice(), 1),
        ([0x27].as_slice(), 7),
        ([].as_slice(), 11),
    ] {
        let first = match heap.push(units) {
            Ok(first) => first,
            Err(_) => run.again(heap.push(units))?,
        };
        kept(first == offset, "the offset of a user string is that")?;
    }
    let bytes = match heap.padded() {
        Ok(bytes) => bytes,
        Err(heap) => run.again(heap.padded())?,
    };
    kept(
        bytes.as_slice() == USER_STRINGS.as_slice(),
        "the heap of user strings is that",
    )
}

/// That the text of a GUID is that, made again where memory was refused.
pub fn guid(run: &Run) -> Result<(), Stop> {
    let guid = [0, 1, 2, 3, 4, 5, 6, 7, 8, 9, 10, 11, 12, 13, 14, 15];
    let text = match guid_text(run.alloc, &guid) {
        Ok(text) => text,
        Err(_) => run.again(guid_text(run.alloc, &guid))?,
    };
    kept(
        text.as_str() == "03020100-0504-0706-0809-0a0b0c0d0e0f",
        "the text of a GUID is that",
    )
}

/// That a heap begins with a zero byte, which is appended again where memory was refused; and that a heap which has
/// bytes is left as it is, and does not allocate.
pub fn first_byte(run: &Run) -> Result<(), Stop> {
    let mut heap = Vec::new(run.alloc);
    if begin(&mut heap).is_err() {
        kept(heap.is_empty(), "a refused first byte leaves the heap")?;
        run.again(begin(&mut heap))?;
    }
    kept(heap.as_slice() == [0].as_slice(), "the first byte is 0")?;
    kept(begin(&mut heap).is_ok(), "a heap that has bytes wants no memory")?;
    kept(heap.as_slice() == [0].as_slice(), "a heap begins once")
}
