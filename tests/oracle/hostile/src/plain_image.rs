//! Reads a file as the standard says it, plainly (ECMA-335 II.25). It shares no code with the library.

use crate::numbers::number_at;
use crate::plain_model::PlainModel;
use crate::plain_reader::read_plain;
use crate::plain_root::Refused;
use crate::standard::{FILE, METHOD_DEF};
use std::alloc::Global;

/// Where a CLI header stands, and where the root lies that it names and how many bytes it has.
#[derive(Clone, Copy, Debug, PartialEq, Eq)]
pub struct PlainHeader {
    pub offset: usize,
    pub root: usize,
    pub len: usize,
}

/// A field of a header, which is there.
fn field(file: &[u8], offset: usize, width: usize) -> usize {
    number_at(file, offset, width).unwrap_or(0) as usize
}

/// The header and the model of a file, or the first rule that it breaks.
pub fn read_plain_image(alloc: Global, file: &[u8]) -> Result<(PlainHeader, PlainModel), Refused> {
    let header = read_plain_header(file)?;
    let root = &file[header.root..header.root + header.len];
    let model = match read_plain(alloc, root) {
        Ok(model) => model,
        Err(Refused::Memory) => return Err(Refused::Memory),
        Err(Refused::Fault(code, offset)) => {
            return Err(Refused::Fault(code, offset + header.root));
        }
    };
    if has_entry_point(file, &header, &model) {
        Ok((header, model))
    } else {
        Err(Refused::Fault(801, header.offset + 20))
    }
}

/// Whether the entry point is native, none, or a row of the model (II.25.3.3.2).
fn has_entry_point(file: &[u8], header: &PlainHeader, model: &PlainModel) -> bool {
    let token = field(file, header.offset + 20, 4);
    let (table, row) = (token >> 24, token & 0xFF_FFFF);
    let is_known = table == METHOD_DEF as usize || table == FILE as usize;
    field(file, header.offset + 16, 4) & 0x10 != 0
        || token == 0
        || is_known && row > 0 && row <= model.rows(table as u8).len()
}

/// The CLI header of a file, or the first rule that it breaks before its root.
pub fn read_plain_header(file: &[u8]) -> Result<PlainHeader, Refused> {
    let (pe, wide) = read_pe_header(file)?;
    let directory = pe + 232 + wide;
    let (rva, size) = (field(file, directory, 4), field(file, directory + 4, 4));
    if rva == 0 || size == 0 {
        return Err(Refused::Fault(201, directory));
    }
    let header = offset_of(file, pe, rva, 72);
    let Some(offset) = header.filter(|_| size >= 72) else {
        return Err(Refused::Fault(202, directory));
    };
    if field(file, offset, 4) < 72 {
        return Err(Refused::Fault(203, offset));
    }
    let (rva, len) = (field(file, offset + 8, 4), field(file, offset + 12, 4));
    match offset_of(file, pe, rva, len) {
        Some(root) => Ok(PlainHeader { offset, root, len }),
        None => Err(Refused::Fault(204, offset + 8)),
    }
}

/// Where the PE signature stands, and how many bytes further on directories stand than in PE32.
fn read_pe_header(file: &[u8]) -> Result<(usize, usize), Refused> {
    if file.len() < 64 || !file.starts_with(b"MZ") {
        return Err(Refused::Fault(102, 0));
    }
    let pe = field(file, 0x3C, 4);
    if pe + 24 > file.len() || !file[pe..].starts_with(b"PE\0\0") {
        return Err(Refused::Fault(103, 0x3C));
    }
    let size = field(file, pe + 20, 2);
    if size < 216 || pe + 24 + size > file.len() {
        return Err(Refused::Fault(104, pe + 20));
    }
    let wide = match field(file, pe + 24, 2) {
        0x10B => 0,
        0x20B if size < 232 => return Err(Refused::Fault(105, pe + 20)),
        0x20B => 16,
        _ => return Err(Refused::Fault(106, pe + 24)),
    };
    if field(file, pe + 116 + wide, 4) < 15 {
        return Err(Refused::Fault(107, pe + 116 + wide));
    }
    if pe + 24 + size + 40 * field(file, pe + 6, 2) > file.len() {
        return Err(Refused::Fault(108, pe + 6));
    }
    Ok((pe, wide))
}

/// The offset of `len` bytes at an address: in the first section that has them all.
fn offset_of(file: &[u8], pe: usize, rva: usize, len: usize) -> Option<usize> {
    let first = pe + 24 + field(file, pe + 20, 2);
    for section in 0..field(file, pe + 6, 2) {
        let header = first + 40 * section;
        let address = field(file, header + 12, 4);
        let size = field(file, header + 16, 4);
        if address <= rva && rva + len <= address + size {
            let offset = field(file, header + 20, 4) + rva - address;
            return Some(offset).filter(|offset| offset + len <= file.len());
        }
    }
    None
}
