//! Tests of the texts of `heaps` at the limit of a strings heap.

use heaps::{PoolError, TextPool};
use std::alloc::{AllocError, Global};
use std::mem;
use std::test::Fail;

/// How many letters there are: 2^20 for a part, and more, so that parts begin at different offsets.
const LETTERS: usize = (1 << 20) + (1 << 12);

/// A text of 2^20 letters and 2^12 more, of which no long part comes twice.
fn long_text(alloc: Global) -> Result<String, AllocError> {
    let mut text = String::with_capacity(alloc, LETTERS)?;
    let mut seed = 1u64;
    for _ in 0..LETTERS {
        seed = seed
            .wrapping_mul(6364136223846793005)
            .wrapping_add(1442695040888963407);
        text.push((b'a' + ((seed >> 33) % 26) as u8) as char)?;
    }
    Ok(text)
}

/// How many bytes the heap has of 1023 parts of a text, of 2^20 bytes each, and one more of this length.
fn planned_len(alloc: Global, text: &str, last: usize) -> Result<usize, PoolError> {
    let mut parts = Vec::with_capacity(alloc, 1024)?;
    for start in 0..1023usize {
        parts.push(&text[start..start + (1 << 20)])?;
    }
    parts.push(&text[4000..4000 + last])?;
    let pool = TextPool::plan(alloc, &parts)?;
    let len = pool.bytes().len();
    // A drop goes over a billion bytes, one by one where each step is checked.
    mem::forget(pool);
    Ok(len)
}

#[test]
fn plans_up_to_the_limit(rt: HostRuntime) -> Result<(), Fail> {
    let text = long_text(rt.alloc())?;
    for (last, len) in [
        ((1 << 20) - 1024, Err(PoolError::Full)),
        ((1 << 20) - 1025, Ok(1 << 30)),
    ] {
        assert_eq!(rt;
            planned_len(rt.alloc(), text.as_str(), last),
            len,
            "at {last}"
        );
    }
    Ok(())
}
