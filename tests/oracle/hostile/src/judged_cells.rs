use crate::judged::{Stop, broken};
use crate::plain_model::{PlainCell, PlainModel};
use crate::plain_signatures::{NotEncoded, reencoded};
use crate::standard::{TABLES, Table};
use model::{
    Bytes, Cell, CellRef, Model, SigError, TableId, Tables, Text, Token, View, decode, encode,
};
use std::alloc::Global;
use std::str;

/// A table, as the library names it.
pub fn table_id(alloc: Global, table: Table) -> Result<TableId, Stop> {
    match TableId::from_number(table) {
        Some(id) if id.number() == table => Ok(id),
        _ => Err(broken(alloc, "a table has another number")),
    }
}

/// Whether a reference is one to a row.
fn names(reference: &Option<Token>, named: &Option<(Table, u32)>) -> bool {
    match (reference, named) {
        (Some(token), Some((table, row))) => token.table.number() == *table && token.row == *row,
        (None, None) => true,
        _ => false,
    }
}

/// Whether a model says what it ought to.
pub fn has_cells(alloc: Global, model: &Model, plain: &PlainModel) -> Result<bool, Stop> {
    if model.version().as_bytes() != plain.version.as_slice()
        || model.user() != plain.user.as_slice()
    {
        return Ok(false);
    }
    for table in TABLES {
        let id = table_id(alloc, table)?;
        if model.count(id) != plain.count(table) {
            return Ok(false);
        }
        for (offset, cells) in plain.rows(table).iter().enumerate() {
            let found = model.cells(id, offset as u32 + 1);
            if found.len() != cells.len() {
                return Ok(false);
            }
            for (cell, expected) in found.iter().zip(cells.iter()) {
                if !says(alloc, cell, expected)? {
                    return Ok(false);
                }
            }
        }
    }
    Ok(true)
}

/// Whether a cell says what it ought to.
fn says(alloc: Global, cell: &Cell, expected: &PlainCell) -> Result<bool, Stop> {
    Ok(match (cell, expected) {
        (Cell::Number(number), PlainCell::Number(other)) => number == other,
        (Cell::Text(text), PlainCell::Text(other)) => text.as_str().as_bytes() == other.as_slice(),
        (Cell::Bytes(bytes), PlainCell::Bytes(other)) => bytes.as_slice() == other.as_slice(),
        (Cell::Guid(guid), PlainCell::Guid(other)) => guid == other,
        (Cell::Ref(reference), PlainCell::Row(named)) => names(reference, named),
        (Cell::Start(start), PlainCell::Start(other)) => start == other,
        (Cell::Sig(signature), PlainCell::Signature(_, other)) => {
            encode(alloc, signature)? == *other
        }
        _ => false,
    })
}

/// Whether a view shows what it ought to.
pub fn shows_cells(alloc: Global, view: &View, plain: &PlainModel) -> Result<bool, Stop> {
    let user = view.user();
    let (same, padding) = plain
        .user
        .as_slice()
        .split_at(user.len().min(plain.user.len()));
    let is_padded = user == same && padding.len() < 4 && padding.iter().all(|byte| *byte == 0);
    if view.version().as_bytes() != plain.version.as_slice() || !is_padded {
        return Ok(false);
    }
    for table in TABLES {
        let id = table_id(alloc, table)?;
        if view.count(id) != plain.count(table) {
            return Ok(false);
        }
        for (offset, cells) in plain.rows(table).iter().enumerate() {
            for (column, expected) in cells.iter().enumerate() {
                if !shows(alloc, view.cell(id, offset as u32 + 1, column), expected)? {
                    return Ok(false);
                }
            }
        }
    }
    Ok(true)
}

/// Whether a cell in place is what it ought to be.
fn shows(alloc: Global, cell: CellRef, expected: &PlainCell) -> Result<bool, Stop> {
    Ok(match (cell, expected) {
        (CellRef::Number(number), PlainCell::Number(other)) => number == *other,
        (CellRef::Text(text), PlainCell::Text(other)) => text.as_bytes() == other.as_slice(),
        (CellRef::Bytes(bytes), PlainCell::Bytes(other)) => bytes == other.as_slice(),
        (CellRef::Guid(guid), PlainCell::Guid(other)) => guid == *other,
        (CellRef::Ref(reference), PlainCell::Row(named)) => names(&reference, named),
        (CellRef::Start(start), PlainCell::Start(other)) => start == *other,
        (CellRef::Sig(blob), PlainCell::Signature(kind, other)) => {
            match reencoded(alloc, blob, *kind, None) {
                Ok(signature) => signature.bytes == *other,
                Err(NotEncoded::Memory) => return Err(Stop::Memory),
                Err(NotEncoded::Bad) => false,
            }
        }
        _ => false,
    })
}

/// Tables of the library with these cells.
pub fn tables_of(alloc: Global, plain: &PlainModel) -> Result<Tables, Stop> {
    let version = str::from_utf8(plain.version.as_slice()).unwrap_or("");
    let mut tables = Tables::new(alloc, version)?;
    tables.set_user(plain.user.as_slice().to_vec(alloc)?);
    for table in TABLES {
        let id = table_id(alloc, table)?;
        for row in plain.rows(table) {
            let mut cells = Vec::new(alloc);
            for cell in row.iter() {
                cells.push(own_cell(alloc, cell)?)?;
            }
            if tables.push(id, cells).is_err() {
                return Err(Stop::Memory);
            }
        }
    }
    Ok(tables)
}

/// A cell of the library that says the same.
fn own_cell(alloc: Global, cell: &PlainCell) -> Result<Cell, Stop> {
    Ok(match cell {
        PlainCell::Number(number) => Cell::Number(*number),
        PlainCell::Text(text) => {
            let text = str::from_utf8(text.as_slice()).unwrap_or("");
            Cell::Text(Text::from(String::from_str(alloc, text)?))
        }
        PlainCell::Bytes(bytes) => Cell::Bytes(Bytes::from(bytes.as_slice().to_vec(alloc)?)),
        PlainCell::Guid(guid) => Cell::Guid(*guid),
        PlainCell::Row(None) => Cell::Ref(None),
        PlainCell::Row(Some((table, row))) => Cell::Ref(Some(Token {
            table: table_id(alloc, *table)?,
            row: *row,
        })),
        PlainCell::Start(start) => Cell::Start(*start),
        PlainCell::Signature(kind, bytes) => match decode(alloc, bytes.as_slice(), *kind) {
            Ok(signature) => Cell::Sig(signature),
            Err(SigError::Memory) => return Err(Stop::Memory),
            Err(SigError::Bad) => return Err(broken(alloc, "a signature is not decoded")),
        },
    })
}
