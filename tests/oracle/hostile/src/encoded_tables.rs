use crate::numbers::put_number;
use crate::plain_model::{PlainCell, PlainModel};
use crate::plain_signatures::reencoded;
use crate::plain_writer::{is_in_order, number_of_row};
use crate::random::Random;
use crate::encoded_heap::EncodedHeap;
use crate::standard::{Counts, Kind, TABLES, Table, columns, key_column, listed, width};
use std::alloc::{AllocError, Global};

/// A table stream and the heaps after it, encoded as no writer does.
#[derive(Drop)]
pub struct EncodedTables {
    pub bytes: Vec<u8>,
    pub texts: EncodedHeap,
    pub blobs: EncodedHeap,
    pub guids: EncodedHeap,
    /// Whether the strings heap is the blobs heap too.
    pub is_joint: bool,
    /// Where cells stand in the stream, and how many bytes they have.
    pub cells: Vec<(usize, usize)>,
}

/// Encodes the tables of a valid model: indexes are wider than they need to be, tables without rows are named, Sorted
/// says what it likes where it may, nulls have any tag, starts are null where the next one is the same, padding is
/// any byte, and bytes follow the last table.
pub fn encoded_tables(
    alloc: Global,
    random: &mut Random,
    model: &PlainModel,
) -> Result<EncodedTables, AllocError> {
    let mut encoded = EncodedTables {
        bytes: Vec::new(alloc),
        texts: EncodedHeap::new(alloc, random)?,
        blobs: EncodedHeap::new(alloc, random)?,
        guids: EncodedHeap::new(alloc, random)?,
        is_joint: random.is_one_in(3),
        cells: Vec::new(alloc),
    };
    let mut numbers = Vec::new(alloc);
    for table in TABLES {
        numbers.push(encoded.numbers(alloc, random, model, table)?)?;
    }
    let sizes = encoded.heap_sizes(random);
    encoded.put_head(random, model, sizes)?;
    let counts = model.counts();
    for (table, rows) in TABLES.iter().zip(numbers.iter()) {
        encoded.put_rows(&counts, sizes, *table, rows.as_slice())?;
    }
    for _byte in 0..random.below(4) {
        encoded.bytes.push(random.byte())?;
    }
    Ok(encoded)
}

impl EncodedTables {
    /// The numbers of a table's cells, row by row.
    fn numbers(
        &mut self,
        alloc: Global,
        random: &mut Random,
        model: &PlainModel,
        table: Table,
    ) -> Result<Vec<u32>, AllocError> {
        let mut numbers = Vec::new(alloc);
        for (row, cells) in model.rows(table).iter().enumerate() {
            let mut offset = 0;
            for kind in columns(table) {
                if *kind == Kind::Padding {
                    numbers.push(u32::from(random.byte()))?;
                    continue;
                }
                let number = match &cells[offset] {
                    PlainCell::Start(start) => {
                        let end = end_of_run(model, table, row, offset, *kind);
                        if *start == end && !random.is_one_in(3) {
                            0
                        } else {
                            *start
                        }
                    }
                    cell => self.number(alloc, random, *kind, cell)?,
                };
                numbers.push(number)?;
                offset += 1;
            }
        }
        Ok(numbers)
    }

    /// A number that stands for a cell.
    fn number(
        &mut self,
        alloc: Global,
        random: &mut Random,
        kind: Kind,
        cell: &PlainCell,
    ) -> Result<u32, AllocError> {
        match cell {
            PlainCell::Number(number) | PlainCell::Start(number) => Ok(*number),
            PlainCell::Text(text) if self.is_joint => self.blobs.text(random, text.as_slice()),
            PlainCell::Text(text) => self.texts.text(random, text.as_slice()),
            PlainCell::Bytes(blob) => self.blobs.blob(random, blob.as_slice()),
            PlainCell::Guid(Some(guid)) => self.guids.guid(random, guid),
            PlainCell::Guid(None) => Ok(0),
            PlainCell::Row(None) => Ok(any_null(random, kind)),
            PlainCell::Row(named) => Ok(number_of_row(*named, kind)),
            PlainCell::Signature(kind, blob) => {
                let forms = if random.is_one_in(2) {
                    Some(*random)
                } else {
                    None
                };
                match reencoded(alloc, blob.as_slice(), *kind, forms) {
                    Ok(signature) => self.blobs.blob(random, signature.bytes.as_slice()),
                    Err(_) => Err(AllocError),
                }
            }
        }
    }

    /// HeapSizes: the bits that indexes need, and any others.
    fn heap_sizes(&self, random: &mut Random) -> u8 {
        let mut bits = random.pick(&[0, 7, 1, 2, 4, 3, 5]);
        let joint = if self.is_joint {
            self.blobs.bytes.len()
        } else {
            0
        };
        if self.texts.bytes.len().max(joint) > 0x1_0000 {
            bits |= 1;
        }
        if self.guids.bytes.len() / 16 > 0xFFFF {
            bits |= 2;
        }
        if self.blobs.bytes.len() > 0x1_0000 {
            bits |= 4;
        }
        bits
    }

    /// What stands before the rows.
    fn put_head(
        &mut self,
        random: &mut Random,
        model: &PlainModel,
        sizes: u8,
    ) -> Result<(), AllocError> {
        let mut valid = 0u64;
        let mut sorted = random.next();
        for table in TABLES {
            if model.count(table) > 0 || random.is_one_in(4) {
                valid |= 1 << table;
            }
            if key_column(table).is_some() && !is_in_order(model, table) {
                sorted &= !(1 << table);
            }
        }
        let reserved = random.byte();
        self.bytes
            .extend_from_slice(&[reserved, 0xFF, reserved, 1, 2, 0, sizes, reserved])?;
        self.bytes.extend_from_slice(&valid.to_le_bytes())?;
        self.bytes.extend_from_slice(&sorted.to_le_bytes())?;
        for table in TABLES {
            if valid >> table & 1 == 1 {
                put_number(&mut self.bytes, model.count(table), 4)?;
            }
        }
        Ok(())
    }

    fn put_rows(
        &mut self,
        counts: &Counts,
        sizes: u8,
        table: Table,
        numbers: &[u32],
    ) -> Result<(), AllocError> {
        let kinds = columns(table);
        for (offset, number) in numbers.iter().enumerate() {
            let width = width(counts, sizes, kinds[offset % kinds.len()]);
            self.cells.push((self.bytes.len(), width))?;
            put_number(&mut self.bytes, *number, width)?;
        }
        Ok(())
    }
}

/// The start that a null one stands for: that of the next owner, and after the last the end of the members.
fn end_of_run(model: &PlainModel, table: Table, row: usize, offset: usize, kind: Kind) -> u32 {
    let next = model.rows(table).get(row + 1).map(|cells| &cells[offset]);
    match (next, kind) {
        (Some(PlainCell::Start(start)), _) => *start,
        (_, Kind::List(members)) => model.count(members) + 1,
        _ => 0,
    }
}

/// A null of a coded index, under any tag that is used.
fn any_null(random: &mut Random, kind: Kind) -> u32 {
    match kind {
        Kind::CodedOrNull(coded) => random.below(listed(coded).len() as u32),
        _ => 0,
    }
}
