use crate::numbers::number_at;
use crate::plain_root::Refused;
use crate::standard::{Counts, TABLES, Table, columns, width};

/// Where the cells of a table stream stand (II.24.2.6), by offsets in the root.
#[derive(Clone, Copy, Debug)]
pub struct PlainLayout {
    pub counts: Counts,
    pub sorted: [bool; 45],
    /// Where each table begins.
    pub first: [usize; 45],
    /// How far into a row each cell stands, and last how long a row is.
    offsets: [[usize; 10]; 45],
}

impl PlainLayout {
    /// Where a cell stands, by its row, counted from 1.
    pub fn offset(&self, table: Table, row: u32, column: usize) -> usize {
        let offsets = &self.offsets[table as usize];
        let len = offsets[columns(table).len()];
        self.first[table as usize] + (row as usize - 1) * len + offsets[column]
    }

    /// The number that a cell stands as.
    pub fn number(&self, bytes: &[u8], table: Table, row: u32, column: usize) -> u32 {
        let offsets = &self.offsets[table as usize];
        let width = offsets[column + 1] - offsets[column];
        number_at(bytes, self.offset(table, row, column), width).unwrap_or(0)
    }
}

/// Whether a bit of eight bytes at an offset is set.
fn is_set(bytes: &[u8], offset: usize, bit: usize) -> bool {
    bytes[offset + bit / 8] >> (bit % 8) & 1 == 1
}

/// Reads the head of the table stream that lies here in a root.
pub fn read_plain_layout(root: &[u8], stream: usize, len: usize) -> Result<PlainLayout, Refused> {
    let bytes = &root[stream..stream + len];
    if len < 24 {
        return Err(Refused::Fault(401, stream));
    }
    if bytes[4] != 2 || bytes[5] != 0 {
        return Err(Refused::Fault(402, stream + 4));
    }
    if bytes[6] > 7 {
        return Err(Refused::Fault(403, stream + 6));
    }
    let (counts, first) = read_counts(bytes, stream)?;
    let layout = laid_out(bytes, counts, stream + first);
    let last = layout.first[44] + counts[44] as usize * layout.offsets[44][2];
    if last > stream + len {
        return Err(Refused::Fault(407, stream + first));
    }
    Ok(layout)
}

/// The counts of rows, and where the first table stands in the stream.
fn read_counts(bytes: &[u8], stream: usize) -> Result<(Counts, usize), Refused> {
    let mut tables = 0;
    for bit in 0..64 {
        if is_set(bytes, 8, bit) {
            if !TABLES.contains(&(bit as u8)) {
                return Err(Refused::Fault(404, stream + 8));
            }
            tables += 1;
        }
    }
    if 24 + 4 * tables > bytes.len() {
        return Err(Refused::Fault(405, stream + 24));
    }
    let mut counts = [0; 45];
    let mut offset = 24;
    for table in TABLES {
        if is_set(bytes, 8, table as usize) {
            let count = number_at(bytes, offset, 4).unwrap_or(0);
            if count > 0xFF_FFFF {
                return Err(Refused::Fault(406, stream + offset));
            }
            counts[table as usize] = count;
            offset += 4;
        }
    }
    Ok((counts, offset))
}

/// Where the cells of tables of these counts stand, the first of them here.
fn laid_out(bytes: &[u8], counts: Counts, first: usize) -> PlainLayout {
    let mut layout = PlainLayout {
        counts,
        sorted: [false; 45],
        first: [first; 45],
        offsets: [[0; 10]; 45],
    };
    let mut start = first;
    for table in TABLES {
        let number = table as usize;
        let mut offset = 0;
        for (column, kind) in columns(table).iter().enumerate() {
            offset += width(&counts, bytes[6], *kind);
            layout.offsets[number][column + 1] = offset;
        }
        layout.first[number] = start;
        layout.sorted[number] = is_set(bytes, 16, number);
        start += offset * counts[number] as usize;
    }
    layout
}
