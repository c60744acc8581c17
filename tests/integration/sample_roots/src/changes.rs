use std::alloc::{AllocError, Global};

/// Writes bytes over those at an offset. What would be past the end is left out.
pub fn write_at(bytes: &mut [u8], offset: usize, part: &[u8]) {
    for (i, byte) in part.iter().enumerate() {
        if let Some(slot) = bytes.get_mut(offset.saturating_add(i)) {
            *slot = *byte;
        }
    }
}

/// Writes each byte at its offset.
pub fn change(bytes: &mut [u8], changes: &[(usize, u8)]) {
    for (offset, byte) in changes {
        write_at(bytes, *offset, &[*byte]);
    }
}

/// Bytes of which some are changed. The only error is lack of memory.
pub fn changed(
    alloc: Global,
    bytes: &[u8],
    changes: &[(usize, u8)],
) -> Result<Vec<u8>, AllocError> {
    let mut copy = Vec::from_slice(alloc, bytes)?;
    change(copy.as_mut_slice(), changes);
    Ok(copy)
}
