//! Tests of `tables`: tables that are filled row by row, and whether they are equal.

mod cells;

use crate::zero_padded::row_cells;
use owned_model::{TableId, Tables};
use sample_tables::Written::{self, NoGuid, NoRow, Number, Text};
use sample_tables::{Change, cells_of, tables_with};
use std::alloc::Global;
use std::test::Fail;

/// Whether a row has the cells that are written.
fn has_cells(
    alloc: Global,
    tables: &Tables,
    table: TableId,
    row: usize,
    written: &[Written],
) -> Result<bool, Fail> {
    let cells = cells_of(alloc, written)?;
    Ok(match row_cells(tables, table, row) {
        Some(found) => found == cells.as_slice(),
        None => false,
    })
}

#[test]
fn rows_are_in_the_order_in_which_they_are_pushed(rt: HostRuntime) -> Result<(), Fail> {
    let alloc = rt.alloc();
    let mut tables = Tables::new(alloc, "v4.0.30319")?;
    assert_eq!(rt;
        (tables.version(), tables.user()),
        ("v4.0.30319", b"".as_slice())
    );
    assert!(rt; TableId::all().iter().all(|table| tables.count(*table) == 0));
    // Of any cells, and in any order of tables.
    let rows = [
        (TableId::GenericParamConstraint, [Number(3)].as_slice()),
        (TableId::Module, &[Number(1), Text("a"), NoGuid]),
        (TableId::GenericParamConstraint, &[]),
        (TableId::Module, &[NoRow]),
        (TableId::GenericParamConstraint, &[Text("b")]),
    ];
    for (table, cells) in rows {
        tables.push(table, cells_of(alloc, cells)?)?;
    }
    for (table, row, cells) in [
        (
            TableId::Module,
            1,
            [Number(1), Text("a"), NoGuid].as_slice(),
        ),
        (TableId::Module, 2, &[NoRow]),
        (TableId::GenericParamConstraint, 1, &[Number(3)]),
        (TableId::GenericParamConstraint, 2, &[]),
        (TableId::GenericParamConstraint, 3, &[Text("b")]),
    ] {
        assert!(rt;
            has_cells(alloc, &tables, table, row, cells)?,
            "{table:?} {row}"
        );
    }
    for (table, row) in [
        (TableId::Module, 0),
        (TableId::Module, 3),
        (TableId::GenericParamConstraint, 4),
        (TableId::TypeRef, 1),
    ] {
        assert!(rt; row_cells(&tables, table, row).is_none(), "{table:?} {row}");
    }
    assert_eq!(rt; tables.rows(TableId::GenericParamConstraint).len(), 3);
    Ok(())
}

#[test]
fn user_bytes_replace_those_before(rt: HostRuntime) -> Result<(), Fail> {
    let alloc = rt.alloc();
    let mut tables = Tables::new(alloc, "")?;
    for user in [b"\0\x01".as_slice(), b"\x02", b""] {
        tables.set_user(Vec::from_slice(alloc, user)?);
        assert_eq!(rt; tables.user(), user);
    }
    Ok(())
}

/// Changes that each make other tables.
const CHANGES: [Change; 8] = [
    Change::Version("v4.0.30318"),
    Change::User(b"\0\x03B\0\0\0\0\0"),
    Change::User(b"\0\x03A\0\0\0\0\0\0\0\0\0"),
    Change::Cell(TableId::Module, 1, 1, Text("b.dll")),
    Change::Cell(TableId::MethodSpec, 3, 0, NoRow),
    Change::Cells(TableId::Param, 3, &[Number(0), Number(1)]),
    Change::Cells(
        TableId::Param,
        3,
        &[Number(0), Number(1), Text("z"), NoGuid],
    ),
    Change::NoRows(TableId::MethodSpec),
];

#[test]
fn tables_are_compared_by_what_they_say(rt: HostRuntime) -> Result<(), Fail> {
    let alloc = rt.alloc();
    let whole = tables_with(alloc, &[])?;
    assert!(rt; whole == tables_with(alloc, &[])?);
    for (offset, change) in CHANGES.iter().enumerate() {
        let changed = tables_with(alloc, &[*change])?;
        assert!(rt; changed != whole && whole != changed, "{change:?}");
        for (other_offset, other) in CHANGES.iter().enumerate() {
            let other = tables_with(alloc, &[*other])?;
            assert_eq!(rt; changed == other, offset == other_offset, "{change:?}");
        }
    }
    // A row more, and room for one more, which nothing says.
    let mut longer = tables_with(alloc, &[])?;
    longer.reserve(TableId::TypeSpec, 1)?;
    assert!(rt; longer == whole);
    longer.push(TableId::TypeSpec, Vec::new(alloc))?;
    assert!(rt; longer != whole);
    Ok(())
}
