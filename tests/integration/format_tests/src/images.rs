use sample_roots::{image, write_at};
use std::alloc::Global;
use std::test::Fail;

/// A file of `len` bytes that begins as the sample does, with these parts at their offsets.
fn file_of(alloc: Global, len: usize, parts: &[(usize, &[u8])]) -> Result<Vec<u8>, Fail> {
    let mut file = vec![in alloc; 0; len]?;
    write_at(file.as_mut_slice(), 0, &image());
    for (offset, part) in parts {
        write_at(file.as_mut_slice(), *offset, part);
    }
    Ok(file)
}

/// The sample of 1024 bytes with some bytes changed.
pub fn sample_with(alloc: Global, changes: &[(usize, &[u8])]) -> Result<Vec<u8>, Fail> {
    file_of(alloc, 1024, changes)
}

/// The headers of a file of 0x600 bytes with these sections, of twelve bytes each.
pub fn sections_of(alloc: Global, sections: &[&[u8]]) -> Result<Vec<u8>, Fail> {
    let count = u8::try_from(sections.len())?;
    let mut file = file_of(alloc, 0x600, &[(0x86, &[count, 0])])?;
    for (number, section) in sections.iter().enumerate() {
        let offset = number.saturating_mul(40).saturating_add(0x184);
        write_at(file.as_mut_slice(), offset, section);
    }
    Ok(file)
}
