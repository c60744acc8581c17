//! Tests of `rows`: cells read and written, and keys looked up.

ghost use Rattle.std.specs.Prelude.{◌≤◌, length};

use rows::{Keys, Rows, find_key, put_row};
use schema::{Layout, TableId, columns};
use std::alloc::Global;
use std::test::Fail;

/// A table stream with one row, of Module.
const MODULE: [u8; 40] = [
    0x00, 0x00, 0x00, 0x00, 0x02, 0x00, 0x00, 0x01, 0x01, 0x00, 0x00, 0x00, 0x00, 0x00, 0x00, 0x00,
    0x00, 0xFA, 0x01, 0x33, 0x00, 0x16, 0x00, 0x00, 0x01, 0x00, 0x00, 0x00, 0x00, 0x00, 0x01, 0x00,
    0x01, 0x00, 0x00, 0x00, 0x00, 0x00, 0x00, 0x00,
];

/// The same row where heap indexes have four bytes.
const WIDE: [u8; 46] = [
    0x00, 0x00, 0x00, 0x00, 0x02, 0x00, 0x07, 0x01, 0x01, 0x00, 0x00, 0x00, 0x00, 0x00, 0x00, 0x00,
    0x00, 0xFA, 0x01, 0x33, 0x00, 0x16, 0x00, 0x00, 0x01, 0x00, 0x00, 0x00, 0x00, 0x00, 0x01, 0x00,
    0x00, 0x00, 0x01, 0x00, 0x00, 0x00, 0x00, 0x00, 0x00, 0x00, 0x00, 0x00, 0x00, 0x00,
];

/// A table stream with a row of Module and two of Constant, whose second column is padding.
const CONSTANTS: [u8; 54] = [
    0x00, 0x00, 0x00, 0x00, 0x02, 0x00, 0x00, 0x01, 0x01, 0x08, 0x00, 0x00, 0x00, 0x00, 0x00, 0x00,
    0x00, 0xFA, 0x01, 0x33, 0x00, 0x16, 0x00, 0x00, 0x01, 0x00, 0x00, 0x00, 0x02, 0x00, 0x00, 0x00,
    0x00, 0x00, 0x01, 0x00, 0x01, 0x00, 0x00, 0x00, 0x00, 0x00, 0x0E, 0x00, 0x04, 0x00, 0x01, 0x00,
    0x08, 0xFF, 0x05, 0x12, 0x03, 0x00,
];

/// The offset and the number of a cell, `None` if the stream has no such cell.
fn cell(stream: &[u8], table: TableId, row: u32, column: usize) -> Option<(usize, u32)> {
    let rows = Rows::new(stream, Layout::read(stream).ok()?);
    let is_there = 1 <= row && row <= rows.layout().count(table) && column < columns(table).len();
    if !is_there {
        return None;
    }
    Some((
        rows.place(table, row, column),
        rows.number(table, row, column),
    ))
}

#[test]
fn reads_cells_in_place(rt: HostRuntime) {
    for (stream, table, row, column, offset, number) in [
        (MODULE.as_slice(), TableId::Module, 1, 0, 28, 0),
        (MODULE.as_slice(), TableId::Module, 1, 1, 30, 1),
        (MODULE.as_slice(), TableId::Module, 1, 2, 32, 1),
        (MODULE.as_slice(), TableId::Module, 1, 4, 36, 0),
        (WIDE.as_slice(), TableId::Module, 1, 1, 30, 1),
        (WIDE.as_slice(), TableId::Module, 1, 2, 34, 1),
        (WIDE.as_slice(), TableId::Module, 1, 4, 42, 0),
        (CONSTANTS.as_slice(), TableId::Module, 1, 2, 36, 1),
        (CONSTANTS.as_slice(), TableId::Constant, 1, 0, 42, 0x0E),
        (CONSTANTS.as_slice(), TableId::Constant, 2, 0, 48, 0x08),
        (CONSTANTS.as_slice(), TableId::Constant, 2, 1, 49, 0xFF),
        (CONSTANTS.as_slice(), TableId::Constant, 2, 2, 50, 0x1205),
        (CONSTANTS.as_slice(), TableId::Constant, 2, 3, 52, 3),
    ] {
        assert_eq!(rt;
            cell(stream, table, row, column),
            Some((offset, number)),
            "at {offset}"
        );
    }
}

/// What `put_row` appends to one byte, of numbers below 256.
fn row_after_a_byte(
    alloc: Global,
    stream: &[u8],
    table: TableId,
    numbers: &[u32],
) -> Result<Vec<u8>, Fail> {
    schema::laws::widths_are_known();
    let mut bytes = vec![in alloc; 0xFF]?;
    put_row(&mut bytes, &Layout::read(stream)?, table, numbers)?;
    Ok(bytes)
}

#[test]
fn appends_rows(rt: HostRuntime) -> Result<(), Fail> {
    let alloc = rt.alloc();
    let bytes = row_after_a_byte(alloc, &MODULE, TableId::Module, &[0, 1, 1, 0, 0])?;
    assert_eq!(rt;
        bytes.as_slice(),
        [0xFF, 0, 0, 1, 0, 1, 0, 0, 0, 0, 0].as_slice()
    );
    let bytes = row_after_a_byte(alloc, &WIDE, TableId::Module, &[0, 1, 1, 0, 0])?;
    let wide = [0xFF, 0, 0, 1, 0, 0, 0, 1, 0, 0, 0, 0, 0, 0, 0, 0, 0, 0, 0];
    assert_eq!(rt; bytes.as_slice(), wide.as_slice());
    let bytes = row_after_a_byte(alloc, &CONSTANTS, TableId::Constant, &[8, 0xFF, 5, 3])?;
    assert_eq!(rt; bytes.as_slice(), [0xFF, 8, 0xFF, 5, 0, 3, 0].as_slice());
    Ok(())
}

/// Keys in a slice.
#[derive(Drop)]
struct Listed<'a> {
    list: &'a [u32],
    asked: u64,
    ghost few: { length list.now ≤ 0xFFFFFF },
}

impl<'a> Keys for Listed<'a> {
    ghost keys = { λ listed. listed.list.now };

    ghost asked = { λ listed. listed.asked };

    fn count(&self) -> u32 {
        self.list.len() as u32
    }

    fn asked(&self) -> u64 {
        self.asked
    }

    fn key(&mut self, row: u32) -> u32 {
        self.asked += 1;
        self.list[row as usize - 1]
    }
}

#[test]
fn finds_the_rows_of_a_key(rt: HostRuntime) {
    for (key, rows) in [
        (39, (1, 2)),
        (46, (2, 4)),
        (40, (2, 2)),
        (48, (4, 4)),
        (0, (1, 1)),
    ] {
        let mut keys = Listed {
            list: &[39, 46, 46],
            asked: 0,
        };
        let found = find_key(&mut keys, key);
        assert_eq!(rt; (found.first, found.past), rows, "of {key}");
        assert!(rt; found.reads <= 6 && found.reads == keys.asked());
    }
}

#[test]
fn finds_all_rows(rt: HostRuntime) -> Result<(), Fail> {
    let list = vec![in rt.alloc(); 2; 2048]?;
    for (key, rows) in [(2, (1, 2049)), (4, (2049, 2049))] {
        let mut keys = Listed {
            list: list.as_slice(),
            asked: 0,
        };
        let found = find_key(&mut keys, key);
        assert_eq!(rt; (found.first, found.past), rows, "of {key}");
        assert!(rt; found.reads <= 26 && found.reads == keys.asked());
    }
    Ok(())
}

#[test]
fn finds_the_greatest_key_and_none(rt: HostRuntime) {
    let mut keys = Listed {
        list: &[7, 0xFFFF_FFFF, 0xFFFF_FFFF],
        asked: 0,
    };
    let found = find_key(&mut keys, 0xFFFF_FFFF);
    assert_eq!(rt; (found.first, found.past), (2, 4));
    let mut keys = Listed {
        list: &[],
        asked: 0,
    };
    let found = find_key(&mut keys, 46);
    assert_eq!(rt; (found.first, found.past), (1, 1));
    assert!(rt; found.reads <= 2);
}

#[test]
fn a_clone_has_the_same_rows(rt: HostRuntime) -> Result<(), Fail> {
    let layout = Layout::read(&MODULE)?.clone()?;
    let rows = Rows::new(&MODULE, layout).clone()?;
    assert_eq!(rt; rows.layout().count(TableId::Module), 1);
    assert_eq!(rt; rows.number(TableId::Module, 1, 1), 1);
    Ok(())
}
