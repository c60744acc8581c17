use owned_model::{Bytes, Cell, TableId, Text, Token};
use signatures::{SigKind, decode};
use std::alloc::Global;
use std::test::Fail;

/// A cell as a test writes it.
#[derive(Clone, Copy, Debug)]
pub enum Written {
    /// A number.
    Number(u32),
    /// A text.
    Text(&'static str),
    /// Bytes.
    Bytes(&'static [u8]),
    /// A GUID.
    Guid([u8; 16]),
    /// No GUID.
    NoGuid,
    /// A row of a table.
    Row(TableId, u32),
    /// No row.
    NoRow,
    /// The first row of an owner's run.
    Start(u32),
    /// The signature that bytes encode in a column of a kind.
    Sig(SigKind, &'static [u8]),
}

impl Written {
    /// The cell.
    pub fn cell(self, alloc: Global) -> Result<Cell, Fail> {
        Ok(match self {
            Written::Number(number) => Cell::Number(number),
            Written::Text(text) => Cell::Text(Text::from(String::from_str(alloc, text)?)),
            Written::Bytes(bytes) => Cell::Bytes(Bytes::from(Vec::from_slice(alloc, bytes)?)),
            Written::Guid(guid) => Cell::Guid(Some(guid)),
            Written::NoGuid => Cell::Guid(None),
            Written::Row(table, row) => Cell::Ref(Some(Token { table, row })),
            Written::NoRow => Cell::Ref(None),
            Written::Start(row) => Cell::Start(row),
            Written::Sig(kind, bytes) => Cell::Sig(decode(alloc, bytes, kind)?),
        })
    }
}

/// The cells of a row.
pub fn cells_of(alloc: Global, row: &[Written]) -> Result<Vec<Cell>, Fail> {
    let mut cells = Vec::new(alloc);
    for written in row {
        cells.push(written.cell(alloc)?)?;
    }
    Ok(cells)
}
