//! Reads a root as the standard says it, plainly: each rule in its turn, over all rows, with no thought of
//! time. It shares no code with the library.

use crate::numbers::{zero_padded, packed_at};
use crate::plain_links::bad_link;
use crate::plain_model::{PlainCell, PlainModel};
use crate::plain_root::{PlainRoot, Refused, read_plain_root};
use crate::plain_signatures::{NotEncoded, reencoded};
use crate::plain_tables::{PlainLayout, read_plain_layout};
use crate::standard::{Counts, Kind, RUNS, TABLES, Table, columns, key_column, listed, tag_bits};
use model::{Coded, SigKind};
use std::alloc::Global;
use std::str;

/// The model of a root, or the first rule that it breaks.
pub fn read_plain(alloc: Global, bytes: &[u8]) -> Result<PlainModel, Refused> {
    let root = read_plain_root(bytes)?;
    let (stream, len) = root.streams[0].unwrap_or((0, 0));
    let layout = read_plain_layout(bytes, stream, len)?;
    let reader = Reader {
        alloc,
        bytes,
        root,
        layout,
    };
    let mut model = reader.cells()?;
    reader.check_order()?;
    if let Some((code, table, row, column)) = bad_link(&model) {
        return reader.fault(code, table, row, column);
    }
    reader.encode_signatures(&mut model)?;
    Ok(model)
}

/// A root that is read.
#[derive(Drop)]
struct Reader<'a> {
    alloc: Global,
    bytes: &'a [u8],
    root: PlainRoot<'a>,
    layout: PlainLayout,
}

impl Reader<'_> {
    /// A fault at a cell.
    fn fault<T: Drop>(
        &self,
        code: u16,
        table: Table,
        row: u32,
        column: usize,
    ) -> Result<T, Refused> {
        Err(Refused::Fault(code, self.layout.offset(table, row, column)))
    }

    fn number(&self, table: Table, row: u32, column: usize) -> u32 {
        self.layout.number(self.bytes, table, row, column)
    }

    fn count(&self, table: Table) -> u32 {
        self.layout.counts[table as usize]
    }

    /// The model of the cells, each of which is what its number stands for; signatures are their blobs.
    fn cells(&self) -> Result<PlainModel, Refused> {
        let mut model = PlainModel {
            version: self.root.version.to_vec(self.alloc)?,
            user: zero_padded(self.alloc, self.root.stream(self.bytes, 2))?,
            tables: Vec::new(self.alloc),
        };
        for table in 0..45 {
            let mut rows = Vec::new(self.alloc);
            for row in 1..self.count(table) + 1 {
                rows.push(self.row(table, row)?)?;
            }
            model.tables.push(rows)?;
        }
        self.resolve_starts(&mut model);
        Ok(model)
    }

    fn row(&self, table: Table, row: u32) -> Result<Vec<PlainCell>, Refused> {
        let mut cells = Vec::new(self.alloc);
        for (column, kind) in columns(table).iter().enumerate() {
            if *kind == Kind::Padding {
                continue;
            }
            match self.cell(*kind, self.number(table, row, column)) {
                Ok(cell) => cells.push(cell)?,
                Err(Refused::Fault(code, _)) => return self.fault(code, table, row, column),
                Err(Refused::Memory) => return Err(Refused::Memory),
            }
        }
        Ok(cells)
    }

    /// What a number in a column stands for; else the code of the rule that it breaks, at no offset.
    fn cell(&self, kind: Kind, number: u32) -> Result<PlainCell, Refused> {
        match kind {
            Kind::Number(_) | Kind::Padding => Ok(PlainCell::Number(number)),
            Kind::Text => self.text(number),
            Kind::Guid => self.guid(number),
            Kind::Blob => Ok(PlainCell::Bytes(self.blob(number)?.to_vec(self.alloc)?)),
            Kind::Signature(kind) => {
                let blob = self.blob(number)?.to_vec(self.alloc)?;
                Ok(PlainCell::Signature(kind, blob))
            }
            Kind::Row(table) => self.named(table, number, false),
            Kind::Coded(coded) => self.coded(coded, number, false),
            Kind::CodedOrNull(coded) => self.coded(coded, number, true),
            Kind::List(table) if number > self.count(table) + 1 => Err(Refused::Fault(507, 0)),
            Kind::List(_) => Ok(PlainCell::Start(number)),
        }
    }

    fn text(&self, index: u32) -> Result<PlainCell, Refused> {
        if index == 0 {
            return Ok(PlainCell::Text(Vec::new(self.alloc)));
        }
        let heap = self.root.stream(self.bytes, 1);
        let tail = heap.get(index as usize..).unwrap_or(&[]);
        let Some(len) = tail.iter().position(|byte| *byte == 0) else {
            return Err(Refused::Fault(501, 0));
        };
        if str::from_utf8(&tail[..len]).is_err() {
            return Err(Refused::Fault(502, 0));
        }
        Ok(PlainCell::Text(tail[..len].to_vec(self.alloc)?))
    }

    fn blob(&self, index: u32) -> Result<&[u8], Refused> {
        if index == 0 {
            return Ok(&[]);
        }
        let heap = self.root.stream(self.bytes, 4);
        let index = index as usize;
        let Some((len, width)) = packed_at(heap, index) else {
            return Err(Refused::Fault(503, 0));
        };
        let blob = heap.get(index + width..index + width + len as usize);
        blob.ok_or(Refused::Fault(503, 0))
    }

    fn guid(&self, index: u32) -> Result<PlainCell, Refused> {
        if index == 0 {
            return Ok(PlainCell::Guid(None));
        }
        let heap = self.root.stream(self.bytes, 3);
        let offset = (index as usize - 1) * 16;
        let Some(part) = heap.get(offset..offset + 16) else {
            return Err(Refused::Fault(504, 0));
        };
        let mut guid = [0; 16];
        guid.copy_from_slice(part);
        Ok(PlainCell::Guid(Some(guid)))
    }

    fn coded(&self, coded: Coded, number: u32, may_be_null: bool) -> Result<PlainCell, Refused> {
        let bits = tag_bits(coded);
        let tag = (number & ((1 << bits) - 1)) as usize;
        match listed(coded).get(tag) {
            Some(Some(table)) => self.named(*table, number >> bits, may_be_null),
            _ => Err(Refused::Fault(505, 0)),
        }
    }

    fn named(&self, table: Table, row: u32, may_be_null: bool) -> Result<PlainCell, Refused> {
        if row == 0 && may_be_null {
            return Ok(PlainCell::Row(None));
        }
        if row == 0 || row > self.count(table) {
            return Err(Refused::Fault(506, 0));
        }
        Ok(PlainCell::Row(Some((table, row))))
    }

    /// Puts the next start in place of each null.
    fn resolve_starts(&self, model: &mut PlainModel) {
        for (owner, column, member) in RUNS {
            let mut next = self.count(member) + 1;
            for row in model.tables[owner as usize].iter_mut().rev() {
                if let PlainCell::Start(start) = &mut row[column] {
                    if *start == 0 {
                        *start = next;
                    }
                    next = *start;
                }
            }
        }
    }

    /// Keys never fall where the Sorted bit says so.
    fn check_order(&self) -> Result<(), Refused> {
        for table in TABLES {
            let Some(column) = key_column(table) else {
                continue;
            };
            for row in 2..self.count(table) + 1 {
                let falls = self.number(table, row, column) < self.number(table, row - 1, column);
                if falls && self.layout.sorted[table as usize] {
                    return self.fault(601, table, row, column);
                }
            }
        }
        Ok(())
    }

    /// Puts the shortest encoding of each signature in place of its blob.
    fn encode_signatures(&self, model: &mut PlainModel) -> Result<(), Refused> {
        for table in TABLES {
            for (column, kind) in columns(table).iter().enumerate() {
                let Kind::Signature(kind) = kind else {
                    continue;
                };
                for (offset, cells) in model.tables[table as usize].iter_mut().enumerate() {
                    let row = offset as u32 + 1;
                    if let PlainCell::Signature(_, blob) = &mut cells[column] {
                        match encoded_again(
                            self.alloc,
                            blob.as_slice(),
                            *kind,
                            &self.layout.counts,
                        ) {
                            Ok(bytes) => *blob = bytes,
                            Err(Refused::Memory) => return Err(Refused::Memory),
                            Err(Refused::Fault(code, _)) => {
                                return self.fault(code, table, row, column);
                            }
                        }
                    }
                }
            }
        }
        Ok(())
    }
}

/// The shortest encoding of a signature whose types have rows; else the code of the rule that it breaks.
pub fn encoded_again(
    alloc: Global,
    blob: &[u8],
    kind: SigKind,
    counts: &Counts,
) -> Result<Vec<u8>, Refused> {
    let signature = match reencoded(alloc, blob, kind, None) {
        Ok(signature) => signature,
        Err(NotEncoded::Memory) => return Err(Refused::Memory),
        Err(NotEncoded::Bad) => return Err(Refused::Fault(701, 0)),
    };
    for (table, row) in signature.indexes.iter() {
        if *row == 0 || *row > counts[*table as usize] {
            return Err(Refused::Fault(702, 0));
        }
    }
    Ok(signature.bytes)
}
