use crate::standard::Table;
use model::SigKind;
use std::alloc::{AllocError, Global};

/// A cell of a row.
#[derive(Debug, PartialEq, Eq, Drop)]
pub enum PlainCell {
    Number(u32),
    Text(Vec<u8>),
    Bytes(Vec<u8>),
    Guid(Option<[u8; 16]>),
    /// A table and a row, or null.
    Row(Option<(Table, u32)>),
    Start(u32),
    /// A signature of a kind of column, in its shortest encoding.
    Signature(SigKind, Vec<u8>),
}

/// What metadata says: nothing of it needs to be valid.
#[derive(Debug, PartialEq, Eq, Drop)]
pub struct PlainModel {
    pub version: Vec<u8>,
    pub user: Vec<u8>,
    /// The rows of each table, by its number.
    pub tables: Vec<Vec<Vec<PlainCell>>>,
}

impl PlainModel {
    /// The rows of a table.
    pub fn rows(&self, table: Table) -> &[Vec<PlainCell>] {
        self.tables[table as usize].as_slice()
    }

    /// How many rows a table has.
    pub fn count(&self, table: Table) -> u32 {
        self.rows(table).len() as u32
    }

    /// How many rows each table has.
    pub fn counts(&self) -> [u32; 45] {
        let mut counts = [0; 45];
        for (count, rows) in counts.iter_mut().zip(self.tables.iter()) {
            *count = rows.len() as u32;
        }
        counts
    }

    /// A cell, by its row, counted from 1, and its index in the row.
    pub fn cell(&self, table: Table, row: u32, offset: usize) -> &PlainCell {
        &self.rows(table)[row as usize - 1][offset]
    }

    /// A copy.
    pub fn copied(&self, alloc: Global) -> Result<PlainModel, AllocError> {
        let mut tables = Vec::new(alloc);
        for rows in self.tables.iter() {
            let mut copied_rows = Vec::new(alloc);
            for cells in rows.iter() {
                let mut copied_cells = Vec::new(alloc);
                for cell in cells.iter() {
                    copied_cells.push(cell.copied(alloc)?)?;
                }
                copied_rows.push(copied_cells)?;
            }
            tables.push(copied_rows)?;
        }
        Ok(PlainModel {
            version: self.version.as_slice().to_vec(alloc)?,
            user: self.user.as_slice().to_vec(alloc)?,
            tables,
        })
    }
}

impl PlainCell {
    /// A copy.
    fn copied(&self, alloc: Global) -> Result<PlainCell, AllocError> {
        Ok(match self {
            PlainCell::Number(number) => PlainCell::Number(*number),
            PlainCell::Text(text) => PlainCell::Text(text.as_slice().to_vec(alloc)?),
            PlainCell::Bytes(bytes) => PlainCell::Bytes(bytes.as_slice().to_vec(alloc)?),
            PlainCell::Guid(guid) => PlainCell::Guid(*guid),
            PlainCell::Row(named) => PlainCell::Row(*named),
            PlainCell::Start(start) => PlainCell::Start(*start),
            PlainCell::Signature(kind, bytes) => {
                PlainCell::Signature(*kind, bytes.as_slice().to_vec(alloc)?)
            }
        })
    }
}
