use crate::made_signatures::made_signature;
use crate::numbers::{packed_width, put_packed};
use crate::plain_model::PlainCell;
use crate::random::Random;
use crate::standard::{Counts, Kind, Table, listed};
use model::Coded;
use std::alloc::{AllocError, Global};

/// Texts of which some end with others, and some have letters of several bytes.
const TEXTS: [&str; 16] = [
    "",
    "Name",
    "ame",
    "me",
    "e",
    "a.dll",
    "dll",
    "<Module>",
    "System",
    "Object",
    "\u{e9}t\u{e9}",
    "t\u{e9}",
    "\u{1f600}",
    "x\u{1f600}",
    "\u{7f}\u{1}",
    "\u{ffff}\u{10ffff}",
];

/// Pieces of which texts are made that share tails.
const PIECES: [&str; 4] = ["a", "b", "ab", "\u{e9}"];

/// Bytes, of which some are those of a signature.
const BLOBS: [&[u8]; 8] = [
    b"",
    b"\x06\x08",
    b"\x00",
    b"\x00\x00",
    b"\x01\x02\x03",
    b"\x02\x06\x08",
    b"\x80\x02\xAA\xBB",
    &[7; 130],
];

/// How many bytes blobs have where their lengths begin to take two bytes.
const LENGTHS: [usize; 3] = [0x7E, 0x7F, 0x80];

/// Makes the cells of rows, of tables of these counts.
#[derive(Drop)]
pub struct CellMaker {
    pub alloc: Global,
    pub random: Random,
    pub counts: Counts,
    /// Whether cells are such as take little time, since there are many.
    pub is_plain: bool,
}

impl CellMaker {
    /// A cell of a column: the start of a run is 1.
    pub fn cell(&mut self, kind: Kind) -> Result<PlainCell, AllocError> {
        match kind {
            Kind::Number(width) => Ok(self.number(width)),
            Kind::Text => self.text(),
            Kind::Blob => self.bytes(),
            Kind::Guid => Ok(self.guid()),
            Kind::Signature(kind) => {
                let mut random = self.random;
                if self.is_plain {
                    random = Random::new(7, u64::from(self.random.below(40)));
                }
                let bytes = made_signature(self.alloc, &mut random, &self.counts, kind)?;
                self.random.next();
                if !self.is_plain {
                    self.random = random;
                }
                Ok(PlainCell::Signature(kind, bytes))
            }
            Kind::Row(table) => Ok(self.row(table)),
            Kind::CodedOrNull(_) if self.random.is_one_in(2) => Ok(PlainCell::Row(None)),
            Kind::Coded(coded) | Kind::CodedOrNull(coded) => Ok(self.coded(coded)),
            Kind::Padding | Kind::List(_) => Ok(PlainCell::Start(1)),
        }
    }

    /// A number of `width` bytes, often the least or the greatest.
    fn number(&mut self, width: usize) -> PlainCell {
        let any = self.random.number() & 0x7FFF_FFFF;
        let number = self.random.pick(&[
            0,
            1,
            0x7F,
            0x80,
            0xFF,
            0x8000,
            0xFFFF,
            0x1_0000,
            u32::MAX,
            any,
        ]);
        PlainCell::Number(match width {
            1 => number & 0xFF,
            2 => number & 0xFFFF,
            _ => number,
        })
    }

    fn text(&mut self) -> Result<PlainCell, AllocError> {
        let mut text = Vec::new(self.alloc);
        if self.is_plain || self.random.is_one_in(2) {
            text.extend_from_slice(self.random.pick(&TEXTS).as_bytes())?;
        } else {
            for _piece in 0..self.random.below(6) {
                text.extend_from_slice(self.random.pick(&PIECES).as_bytes())?;
            }
        }
        Ok(PlainCell::Text(text))
    }

    /// Bytes; some of them encode others with their length before them.
    fn bytes(&mut self) -> Result<PlainCell, AllocError> {
        let blob = self.random.pick(&BLOBS);
        let mut bytes = Vec::new(self.alloc);
        if self.is_plain || !self.random.is_one_in(4) {
            bytes.extend_from_slice(blob)?;
        } else if self.random.is_one_in(12) {
            let len = self.random.pick(&LENGTHS);
            bytes.resize(len, self.random.byte())?;
        } else {
            let width = self
                .random
                .pick(&[1, 2, 4])
                .max(packed_width(blob.len() as u32));
            bytes.push(self.random.byte())?;
            put_packed(&mut bytes, blob.len() as u32, width)?;
            bytes.extend_from_slice(blob)?;
        }
        Ok(PlainCell::Bytes(bytes))
    }

    fn guid(&mut self) -> PlainCell {
        if self.random.is_one_in(3) {
            return PlainCell::Guid(None);
        }
        PlainCell::Guid(Some([self.random.byte() % 4; 16]))
    }

    /// A row of a table: often its first or its last.
    fn row(&mut self, table: Table) -> PlainCell {
        let last = self.counts[table as usize];
        let any = self.random.between(1, last);
        PlainCell::Row(Some((table, self.random.pick(&[1, last, any, any]))))
    }

    /// A row of a table that a coded index names and that has rows; else null.
    fn coded(&mut self, coded: Coded) -> PlainCell {
        let tables = listed(coded);
        let first = self.random.offset(tables.len());
        for step in 0..tables.len() {
            if let Some(table) = tables[(first + step) % tables.len()] {
                if self.counts[table as usize] > 0 {
                    return self.row(table);
                }
            }
        }
        PlainCell::Row(None)
    }
}
