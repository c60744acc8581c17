use std::alloc::Global;
use std::test::Fail;

/// A 4-byte integer after `count` copies of the same bytes.
pub fn nested(alloc: Global, outer: &[u8], count: usize) -> Result<Vec<u8>, Fail> {
    let mut bytes = Vec::new(alloc);
    for _ in 0..count {
        bytes.extend_from_slice(outer)?;
    }
    bytes.push(0x08)?;
    Ok(bytes)
}
