use crate::records::laid_out::{BLOB, GUID, STRINGS, put, root_of};
use schema::{ColumnKind, SigKind, TableId, columns, join};
use std::alloc::Global;
use std::test::Fail;

/// Texts of three bytes, of which each takes four with its end, so that the text of cell 0 is at 1.
const TEXTS: &[u8] = b"\0t.0\0t.1\0t.2\0t.3\0t.4\0t.5\0t.6\0t.7\0t.8\0";

/// Blobs: a signature of each kind, and from 23 on one of a byte for each cell.
const BLOBS: &[u8] = &[
    0, 2, 0x06, 0x08, 3, 0x00, 0x00, 0x01, 3, 0x07, 0x01, 0x08, 3, 0x08, 0x00, 0x08, 2, 0x0F, 0x01,
    3, 0x0A, 0x01, 0x08, 1, 0, 1, 1, 1, 2, 1, 3, 1, 4, 1, 5, 1, 6, 1, 7, 1, 8,
];

/// The index of a signature among the blobs.
fn signature_index(column: SigKind) -> u32 {
    match column {
        SigKind::Field | SigKind::MemberRef => 1,
        SigKind::MethodDef => 4,
        SigKind::StandAlone => 8,
        SigKind::Property => 12,
        SigKind::TypeSpec => 16,
        SigKind::Instance => 19,
    }
}

/// How many rows a table has: one, but for TypeDef, where one type is nested in the other.
fn row_count(table: TableId) -> u32 {
    if table == TableId::TypeDef { 2 } else { 1 }
}

/// The number of a column at an offset of a row. It depends on the offset if the column is of numbers,
/// texts or blobs. Otherwise it is the first row or GUID; the type that is nested is the second.
fn number_at(table: TableId, kind: ColumnKind, offset: u32) -> u32 {
    match kind {
        ColumnKind::U8 | ColumnKind::U16 | ColumnKind::U32 => offset.saturating_add(1),
        ColumnKind::Padding => 0,
        ColumnKind::Text => offset.saturating_mul(4).saturating_add(1),
        ColumnKind::Guid => 1,
        ColumnKind::Blob => offset.saturating_mul(2).saturating_add(23),
        ColumnKind::Signature(column) => signature_index(column),
        ColumnKind::Row(_) if table == TableId::NestedClass && offset == 0 => 2,
        ColumnKind::Row(_) | ColumnKind::List(_) => 1,
        ColumnKind::Coded(coded) => {
            let listed = coded.tables().iter().filter_map(|listed| *listed);
            listed
                .last()
                .and_then(|table| join(coded, table, 1))
                .unwrap_or(0)
        }
    }
}

/// How many bytes a column takes, where heaps and tables are small.
fn width_of(kind: ColumnKind) -> usize {
    match kind {
        ColumnKind::U8 | ColumnKind::Padding => 1,
        ColumnKind::U32 => 4,
        _ => 2,
    }
}

/// The rows of all tables, in the order of their numbers.
fn rows(alloc: Global) -> Result<Vec<u8>, Fail> {
    let mut bytes = Vec::new(alloc);
    for table in TableId::all() {
        for _ in 0..row_count(*table) {
            for (offset, column) in (0..9).zip(columns(*table)) {
                let number = number_at(*table, column.kind, offset);
                put(&mut bytes, number as usize, width_of(column.kind))?;
            }
        }
    }
    Ok(bytes)
}

/// A root with a row of each table, and two of TypeDef.
pub fn full_root(alloc: Global) -> Result<Vec<u8>, Fail> {
    let mut counts = Vec::new(alloc);
    for table in TableId::all() {
        counts.push((table.number(), row_count(*table)))?;
    }
    let rows = rows(alloc)?;
    root_of(
        alloc,
        counts.as_slice(),
        rows.as_slice(),
        &[(STRINGS, TEXTS), (BLOB, BLOBS), (GUID, &[7; 16])],
    )
}
