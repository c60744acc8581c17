//! Writes the canonical root of a model, plainly (II.24.2). It shares no code with the library.

use crate::numbers::{zero_padded, put_number};
use crate::plain_model::{PlainCell, PlainModel};
use crate::plain_pools::{Pools, pools_of};
use crate::plain_root::STREAMS;
use crate::standard::{Counts, Kind, TABLES, Table, columns, key_column, listed, tag_bits, width};
use std::alloc::{AllocError, Global};

/// The canonical root of a valid model.
pub fn write_plain(alloc: Global, model: &PlainModel) -> Result<Vec<u8>, AllocError> {
    let pools = pools_of(alloc, model)?;
    let tables = tables_of(alloc, model, &pools)?;
    let contents = [
        zero_padded(alloc, tables.as_slice())?,
        zero_padded(alloc, pools.texts.bytes.as_slice())?,
        zero_padded(alloc, model.user.as_slice())?,
        zero_padded(alloc, pools.guids.bytes.as_slice())?,
        zero_padded(alloc, pools.blobs.bytes.as_slice())?,
    ];
    let mut streams = 0;
    let mut offset = 20 + (model.version.len() / 4 + 1) * 4;
    for (content, name) in contents.iter().zip(STREAMS.iter()) {
        if !content.is_empty() {
            streams += 1;
            offset += 8 + (name.len() / 4 + 1) * 4;
        }
    }
    let mut bytes = b"BSJB\x01\0\x01\0\0\0\0\0".to_vec(alloc)?;
    put_version(&mut bytes, model.version.as_slice())?;
    put_number(&mut bytes, 0, 2)?;
    put_number(&mut bytes, streams, 2)?;
    for (content, name) in contents.iter().zip(STREAMS.iter()) {
        if !content.is_empty() {
            put_number(&mut bytes, offset as u32, 4)?;
            put_number(&mut bytes, content.len() as u32, 4)?;
            put_name(&mut bytes, name)?;
            offset += content.len();
        }
    }
    for content in contents.iter() {
        bytes.extend_from_slice(content.as_slice())?;
    }
    Ok(bytes)
}

/// Writes a name, a NUL and zeros to a multiple of four.
fn put_name(bytes: &mut Vec<u8>, name: &[u8]) -> Result<(), AllocError> {
    bytes.extend_from_slice(name)?;
    for _padding in 0..4 - name.len() % 4 {
        bytes.push(0)?;
    }
    Ok(())
}

fn put_version(bytes: &mut Vec<u8>, version: &[u8]) -> Result<(), AllocError> {
    let field = (version.len() / 4 + 1) * 4;
    put_number(bytes, field as u32, 4)?;
    put_name(bytes, version)
}

/// HeapSizes: a bit for each heap whose stream has 65536 bytes or more.
fn heap_sizes(pools: &Pools) -> u8 {
    let mut bits = 0;
    for (bit, len) in [
        (1, pools.texts.bytes.len()),
        (2, pools.guids.bytes.len()),
        (4, pools.blobs.bytes.len()),
    ] {
        if len.div_ceil(4) * 4 >= 0x1_0000 {
            bits |= bit;
        }
    }
    bits
}

/// The table stream.
fn tables_of(alloc: Global, model: &PlainModel, pools: &Pools) -> Result<Vec<u8>, AllocError> {
    let counts = model.counts();
    let sizes = heap_sizes(pools);
    let mut valid = 0u64;
    let mut sorted = 0u64;
    for table in TABLES {
        if counts[table as usize] > 0 {
            valid |= 1 << table;
        }
        if is_in_order(model, table) {
            sorted |= 1 << table;
        }
    }
    let mut bytes = [0, 0, 0, 0, 2, 0, sizes, 1].to_vec(alloc)?;
    bytes.extend_from_slice(&valid.to_le_bytes())?;
    bytes.extend_from_slice(&sorted.to_le_bytes())?;
    for table in TABLES {
        if counts[table as usize] > 0 {
            put_number(&mut bytes, counts[table as usize], 4)?;
        }
    }
    for table in TABLES {
        put_rows(&mut bytes, model, table, pools, &counts, sizes)?;
    }
    Ok(bytes)
}

fn put_rows(
    bytes: &mut Vec<u8>,
    model: &PlainModel,
    table: Table,
    pools: &Pools,
    counts: &Counts,
    sizes: u8,
) -> Result<(), AllocError> {
    for cells in model.rows(table) {
        let mut cells = cells.iter();
        for kind in columns(table) {
            let number = match kind {
                Kind::Padding => 0,
                _ => cells.next().map_or(0, |cell| number_of(cell, *kind, pools)),
            };
            put_number(bytes, number, width(counts, sizes, *kind))?;
        }
    }
    Ok(())
}

/// The number that stands for a cell.
fn number_of(cell: &PlainCell, kind: Kind, pools: &Pools) -> u32 {
    match cell {
        PlainCell::Number(number) | PlainCell::Start(number) => *number,
        PlainCell::Text(text) => pools.texts.index(text.as_slice()),
        PlainCell::Bytes(blob) | PlainCell::Signature(_, blob) => pools
            .blobs
            .index(blob.as_slice()),
        PlainCell::Guid(Some(guid)) => pools.guids.index(guid.as_slice()),
        PlainCell::Guid(None) => 0,
        PlainCell::Row(named) => number_of_row(*named, kind),
    }
}

/// The number by which a column names a row (II.24.2.6).
pub fn number_of_row(named: Option<(Table, u32)>, kind: Kind) -> u32 {
    match (named, kind) {
        (Some((table, row)), Kind::Coded(coded) | Kind::CodedOrNull(coded)) => {
            let tag = listed(coded).iter().position(|other| *other == Some(table));
            row << tag_bits(coded) | tag.unwrap_or(0) as u32
        }
        (Some((_, row)), _) => row,
        (None, _) => 0,
    }
}

/// The row that a row of a keyed table has as its key.
pub fn key_row(cells: &[PlainCell], table: Table) -> Option<(Table, u32)> {
    let column = key_column(table)?;
    let mut offset = column;
    if columns(table)[..column].contains(&Kind::Padding) {
        offset -= 1;
    }
    match cells.get(offset) {
        Some(PlainCell::Row(named)) => *named,
        _ => None,
    }
}

/// The number of a row's key; 0 in a table without a key.
pub fn key_number(cells: &[PlainCell], table: Table) -> u32 {
    match key_column(table) {
        Some(column) => number_of_row(key_row(cells, table), columns(table)[column]),
        None => 0,
    }
}

/// Whether a table has a key whose numbers never fall.
pub fn is_in_order(model: &PlainModel, table: Table) -> bool {
    let mut before = 0;
    for cells in model.rows(table) {
        let key = key_number(cells.as_slice(), table);
        if key < before {
            return false;
        }
        before = key;
    }
    key_column(table).is_some()
}
