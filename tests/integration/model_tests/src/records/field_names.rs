use crate::records::standard::standard_names;
use schema::{ColumnKind, TableId, columns};
use std::alloc::Global;
use std::test::Fail;
use tables::Cell;

/// Whether a capital is at an offset of a name.
fn is_capital(name: &[u8], offset: usize) -> bool {
    name.get(offset)
        .is_some_and(|byte| byte.is_ascii_uppercase())
}

/// Whether a small letter is at an offset of a name.
fn is_small(name: &[u8], offset: usize) -> bool {
    name.get(offset)
        .is_some_and(|byte| byte.is_ascii_lowercase())
}

/// Whether a letter of a column's name begins a word after the first: a capital does if it follows a
/// small letter, or comes before one.
fn begins_word(name: &[u8], offset: usize) -> bool {
    offset > 0
        && is_capital(name, offset)
        && (is_small(name, offset.saturating_sub(1)) || is_small(name, offset.saturating_add(1)))
}

/// The name of the field of a column: in small letters, with underscores between the words. A field may not
/// be called `type`, so it is called `kind`.
fn field_name(alloc: Global, column: &str) -> Result<String, Fail> {
    if column == "Type" {
        return Ok(String::from_str(alloc, "kind")?);
    }
    let mut name = String::new(alloc);
    for (offset, byte) in column.as_bytes().iter().enumerate() {
        if begins_word(column.as_bytes(), offset) {
            name.push('_')?;
        }
        name.push(byte.to_ascii_lowercase() as char)?;
    }
    Ok(name)
}

/// What a cell says, as a record shows it.
fn shown(alloc: Global, cell: &Cell) -> Result<String, Fail> {
    Ok(match cell {
        Cell::Number(number) => format!(in alloc; "{number:?}")?,
        Cell::Text(text) => {
            let text = text.as_str();
            format!(in alloc; "{text:?}")?
        }
        Cell::Bytes(bytes) => {
            let bytes = bytes.as_slice();
            format!(in alloc; "{bytes:?}")?
        }
        Cell::Guid(guid) => format!(in alloc; "{guid:?}")?,
        Cell::Ref(reference) => format!(in alloc; "{reference:?}")?,
        Cell::Start(row) => format!(in alloc; "{row:?}")?,
        Cell::Sig(signature) => format!(in alloc; "{signature:?}")?,
    })
}

/// How a record of a table is shown, whose fields have the names of the columns and say what the cells say.
pub fn shown_record(alloc: Global, table: TableId, cells: &[Cell]) -> Result<String, Fail> {
    let mut text = String::from_str(alloc, table.name())?;
    let mut cells = cells.iter();
    let names = standard_names(table).ok_or("no such table")?;
    let mut before = " {";
    for (name, column) in names.split(' ').zip(columns(table)) {
        if column.kind == ColumnKind::Padding {
            continue;
        }
        let cell = cells.next().ok_or("too few cells")?;
        let (name, value) = (field_name(alloc, name)?, shown(alloc, cell)?);
        write!(text, "{before} {name}: {value}")?;
        before = ",";
    }
    text.push_str(" }")?;
    Ok(text)
}
