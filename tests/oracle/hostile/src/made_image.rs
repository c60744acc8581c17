use crate::plain_model::PlainModel;
use crate::random::Random;
use crate::encoded_root::EncodedRoot;
use crate::standard::{FILE, METHOD_DEF};
use std::alloc::{AllocError, Global};

/// A section: its address, its number of bytes, and their offset.
#[derive(Clone, Copy)]
struct Section {
    address: u32,
    len: u32,
    offset: u32,
}

/// A file around a root: its headers stand anywhere, the CLI header and the root in one section or in two, and there
/// are sections before and after them that are not meant.
pub fn made_image(
    alloc: Global,
    random: &mut Random,
    model: &PlainModel,
    root: &EncodedRoot,
) -> Result<EncodedRoot, AllocError> {
    let mut image = EncodedRoot {
        bytes: Vec::new(alloc),
        heads: Vec::new(alloc),
        cells: Vec::new(alloc),
        values: Vec::new(alloc),
    };
    let pe = random.between(64, 200);
    let wide = random.pick(&[0, 16]);
    let optional = 216 + wide + random.below(30);
    let sections = random.between(2, 5);
    let header = pe + 24 + optional + 40 * sections + random.below(20);
    let start = header + 72 + random.below(20);
    let end = start + root.bytes.len() as u32;
    for _byte in 0..end + random.below(20) {
        image.bytes.push(random.pick(&[0, 0xFF]))?;
    }
    image.put(0, b"MZ");
    image.put_head(0x3C, pe, 4)?;
    image.put(pe, b"PE\0\0");
    image.put_head(pe + 6, sections, 2)?;
    image.put_head(pe + 20, optional, 2)?;
    image.put_head(pe + 24, if wide == 0 { 0x10B } else { 0x20B }, 2)?;
    let directories = random.pick(&[15, 16, u32::MAX]);
    image.put_head(pe + 116 + wide, directories, 4)?;
    let table = sections_of(random, sections, header, start, end);
    image.put_sections(pe + 24 + optional, &table[..sections as usize])?;
    let size = random.pick(&[72, 73, u32::MAX]);
    image.put_head(pe + 232 + wide, address_of(&table, header, 72), 4)?;
    image.put_head(pe + 236 + wide, size, 4)?;
    let cb = random.pick(&[72, 80, u32::MAX]);
    image.put_head(header, cb, 4)?;
    image.put_head(header + 8, address_of(&table, start, end - start), 4)?;
    image.put_head(header + 12, end - start, 4)?;
    let (flags, token) = entry_of(random, model);
    image.put_head(header + 16, flags, 4)?;
    for _twice in 0..2 {
        image.put_head(header + 20, token, 4)?;
    }
    image.put(start, root.bytes.as_slice());
    image.note_root(random, start as usize, root)?;
    Ok(image)
}

/// Sections of which the first that hold all of the CLI header and all of the root are right. A section that comes
/// before them holds all of neither.
fn sections_of(random: &mut Random, count: u32, header: u32, start: u32, end: u32) -> [Section; 5] {
    let address = random.pick(&[0x2000, 1, 0x7FFF_0000]);
    let len = end - header + random.below(3);
    let mut whole = Section {
        address,
        len,
        offset: header,
    };
    let mut sections = [whole; 5];
    let mut next = 0;
    if random.is_one_in(2) {
        // It ends within the header.
        sections[0].len = random.below(72);
        sections[0].offset = 0;
        next = 1;
    }
    if random.is_one_in(2) && next + 1 < count as usize {
        // The header has a section of its own.
        sections[next].len = 72 + random.below(start - header - 71);
        sections[next].offset = header;
        whole.address = address + len;
        whole.offset = start;
        whole.len = end - start;
        next += 1;
    }
    sections[next] = whole;
    for other in &mut sections[next + 1..] {
        other.offset = random.below(end);
        other.len = 0xFFFF;
    }
    sections
}

/// The address of bytes at an offset of the file, by the first section that holds them there.
fn address_of(sections: &[Section], offset: u32, len: u32) -> u32 {
    for section in sections {
        let is_held = section.offset <= offset && offset + len <= section.offset + section.len;
        if is_held && section.offset >= 64 {
            return section.address + offset - section.offset;
        }
    }
    0
}

/// Flags and an entry point that they allow.
fn entry_of(random: &mut Random, model: &PlainModel) -> (u32, u32) {
    let table = random.pick(&[METHOD_DEF, FILE]);
    let count = model.count(table);
    if random.is_one_in(4) {
        (0x10, random.number())
    } else if count > 0 && random.is_one_in(2) {
        (
            random.pick(&[0, 1, 0xFFFF_FFEF]),
            u32::from(table) << 24 | random.pick(&[1, count]),
        )
    } else {
        (0, 0)
    }
}

impl EncodedRoot {
    /// Puts bytes at an offset.
    fn put(&mut self, offset: u32, part: &[u8]) {
        for (byte, new) in self.bytes.iter_mut().skip(offset as usize).zip(part.iter()) {
            *byte = *new;
        }
    }

    /// Puts a number at an offset that means something.
    fn put_head(&mut self, offset: u32, number: u32, width: usize) -> Result<(), AllocError> {
        self.put(offset, &number.to_le_bytes()[..width]);
        self.heads.push((offset as usize, width))?;
        Ok(())
    }

    fn put_sections(&mut self, offset: u32, sections: &[Section]) -> Result<(), AllocError> {
        let mut offset = offset;
        for section in sections {
            self.put_head(offset + 12, section.address, 4)?;
            self.put_head(offset + 16, section.len, 4)?;
            self.put_head(offset + 20, section.offset, 4)?;
            offset += 40;
        }
        Ok(())
    }

    /// Notes some offsets of the root.
    fn note_root(
        &mut self,
        random: &mut Random,
        start: usize,
        root: &EncodedRoot,
    ) -> Result<(), AllocError> {
        for offsets in [&root.heads, &root.cells, &root.values] {
            if !offsets.is_empty() {
                let (offset, width) = random.pick(offsets.as_slice());
                self.heads.push((start + offset, width))?;
            }
        }
        Ok(())
    }
}
