use crate::written_cells::Written::{
    self, Bytes, Guid, NoGuid, NoRow, Number, Row, Sig, Start, Text,
};
use owned_model::{Cell, TableId, Tables};
use signatures::SigKind;
use std::alloc::Global;
use std::test::Fail;

/// Three rows.
type Three = [&'static [Written]; 3];

/// A blob of a four byte number as a field, of a method without parameters and a result, and of a property.
const FIELD: Written = Sig(SigKind::Field, b"\x06\x08");

const METHOD: Written = Sig(SigKind::MethodDef, b"\0\0\x01");

const PROPERTY: Written = Sig(SigKind::Property, b"\x28\0\x08");

/// Valid tables of three rows each.
const WHOLE: [(TableId, Three); 18] = [
    (
        TableId::Module,
        [
            &[Number(0), Text("a.dll"), Guid([7; 16]), NoGuid, NoGuid],
            &[Number(0xFFFF), Text(""), NoGuid, NoGuid, NoGuid],
            &[Number(1), Text("é"), NoGuid, Guid([0; 16]), Guid([1; 16])],
        ],
    ),
    (
        TableId::TypeRef,
        [
            &[Row(TableId::AssemblyRef, 3), Text("Object"), Text("System")],
            &[NoRow, Text("Nowhere"), Text("")],
            &[Row(TableId::TypeRef, 1), Text("Inner"), Text("")],
        ],
    ),
    (
        TableId::TypeDef,
        [
            &[
                Number(0),
                Text("<Module>"),
                Text(""),
                NoRow,
                Start(1),
                Start(1),
            ],
            &[
                Number(0xFFFF_FFFF),
                Text("C"),
                Text("N"),
                Row(TableId::TypeRef, 3),
                Start(2),
                Start(2),
            ],
            &[
                Number(2),
                Text("D"),
                Text(""),
                Row(TableId::TypeSpec, 3),
                Start(3),
                Start(3),
            ],
        ],
    ),
    (
        TableId::Field,
        [
            &[Number(1), Text("a"), FIELD],
            &[Number(2), Text("b"), FIELD],
            &[Number(3), Text("c"), Sig(SigKind::Field, b"\x06\x12\x0D")],
        ],
    ),
    (
        TableId::MethodDef,
        [
            &[Number(1), Number(2), Number(3), Text("M"), METHOD, Start(1)],
            &[Number(0), Number(0), Number(0), Text("N"), METHOD, Start(2)],
            &[Number(0), Number(0), Number(0), Text("O"), METHOD, Start(3)],
        ],
    ),
    (
        TableId::Param,
        [
            &[Number(0), Number(1), Text("x")],
            &[Number(0), Number(1), Text("y")],
            &[Number(0), Number(1), Text("z")],
        ],
    ),
    (
        TableId::InterfaceImpl,
        [
            &[Row(TableId::TypeDef, 1), Row(TableId::TypeRef, 1)],
            &[Row(TableId::TypeDef, 2), Row(TableId::TypeDef, 3)],
            &[Row(TableId::TypeDef, 3), Row(TableId::TypeSpec, 2)],
        ],
    ),
    (
        TableId::MemberRef,
        [
            &[Row(TableId::TypeRef, 1), Text("f"), FIELD],
            &[
                Row(TableId::MethodDef, 2),
                Text("v"),
                Sig(SigKind::MemberRef, b"\x05\x01\x01\x41\x08"),
            ],
            &[Row(TableId::TypeSpec, 1), Text("m"), METHOD],
        ],
    ),
    (
        TableId::Constant,
        [
            &[Number(8), Row(TableId::Field, 1), Bytes(b"\0\0\0\0")],
            &[Number(0xFF), Row(TableId::Param, 1), Bytes(b"")],
            &[Number(0), Row(TableId::Property, 1), Bytes(b"\xFF")],
        ],
    ),
    (
        TableId::StandAloneSig,
        [
            &[Sig(SigKind::StandAlone, b"\x07\x01\x08")],
            &[METHOD],
            &[FIELD],
        ],
    ),
    (
        TableId::EventMap,
        [
            &[Row(TableId::TypeDef, 1), Start(1)],
            &[Row(TableId::TypeDef, 2), Start(2)],
            &[Row(TableId::TypeDef, 3), Start(3)],
        ],
    ),
    (
        TableId::Event,
        [
            &[Number(0), Text("d"), NoRow],
            &[Number(0), Text("e"), Row(TableId::TypeRef, 1)],
            &[Number(0), Text("f"), NoRow],
        ],
    ),
    (
        TableId::PropertyMap,
        [
            &[Row(TableId::TypeDef, 1), Start(1)],
            &[Row(TableId::TypeDef, 2), Start(2)],
            &[Row(TableId::TypeDef, 3), Start(3)],
        ],
    ),
    (
        TableId::Property,
        [
            &[Number(0), Text("p"), PROPERTY],
            &[Number(0), Text("q"), PROPERTY],
            &[Number(0), Text("r"), PROPERTY],
        ],
    ),
    (
        TableId::TypeSpec,
        [
            &[Sig(SigKind::TypeSpec, b"\x08")],
            &[Sig(SigKind::TypeSpec, b"\x12\x0E")],
            &[Sig(SigKind::TypeSpec, b"\x1D\x0E")],
        ],
    ),
    (
        TableId::AssemblyRef,
        [
            &[
                Number(4),
                Number(0),
                Number(0),
                Number(0),
                Number(1),
                Bytes(b"\x01"),
                Text("mscorlib"),
                Text(""),
                Bytes(b""),
            ],
            &[
                Number(4),
                Number(0),
                Number(0),
                Number(0),
                Number(0xFFFF_FFFF),
                Bytes(b""),
                Text("b"),
                Text("en"),
                Bytes(b""),
            ],
            &[
                Number(1),
                Number(2),
                Number(3),
                Number(0xFFFF),
                Number(0),
                Bytes(b""),
                Text("c"),
                Text(""),
                Bytes(b"\x02\x03"),
            ],
        ],
    ),
    (
        TableId::NestedClass,
        [
            &[Row(TableId::TypeDef, 2), Row(TableId::TypeDef, 1)],
            &[Row(TableId::TypeDef, 3), Row(TableId::TypeDef, 1)],
            &[Row(TableId::TypeDef, 3), Row(TableId::TypeDef, 2)],
        ],
    ),
    (
        TableId::MethodSpec,
        [
            &[
                Row(TableId::MethodDef, 3),
                Sig(SigKind::Instance, b"\x0A\x01\x08"),
            ],
            &[
                Row(TableId::MemberRef, 3),
                Sig(SigKind::Instance, b"\x0A\0"),
            ],
            &[
                Row(TableId::MethodDef, 1),
                Sig(SigKind::Instance, b"\x0A\x01\x0E"),
            ],
        ],
    ),
];

/// A change to these tables.
#[derive(Clone, Copy, Debug)]
pub enum Change {
    /// Another version.
    Version(&'static str),
    /// User bytes.
    User(&'static [u8]),
    /// Other cells of a row.
    Cells(TableId, usize, &'static [Written]),
    /// Another cell, by its row from 1 and its index in the row from 0.
    Cell(TableId, usize, usize, Written),
    /// No rows of a table.
    NoRows(TableId),
}

/// The version of the changed tables.
fn version_by(changes: &[Change]) -> &'static str {
    for change in changes {
        if let Change::Version(version) = change {
            return *version;
        }
    }
    "v4.0.30319"
}

/// The user bytes of the changed tables.
fn user_by(changes: &[Change]) -> &'static [u8] {
    for change in changes {
        if let Change::User(user) = change {
            return *user;
        }
    }
    b"\0\x03A\0\0\0\0\0"
}

/// Whether a table keeps its rows.
fn has_rows(changes: &[Change], table: TableId) -> bool {
    !changes.iter().any(|change| matches!(change, Change::NoRows(emptied) if *emptied == table))
}

/// The cells of a row, as they are written and as a change has them.
fn written_by(
    changes: &[Change],
    table: TableId,
    row: usize,
    cells: &'static [Written],
) -> &'static [Written] {
    for change in changes {
        if let Change::Cells(changed, at, others) = change {
            if *changed == table && *at == row {
                return *others;
            }
        }
    }
    cells
}

/// A cell of a row, as it is written and as a change has it.
fn cell_by(changes: &[Change], table: TableId, row: usize, offset: usize, cell: Written) -> Written {
    for change in changes {
        if let Change::Cell(changed, at, column, other) = change {
            if *changed == table && *at == row && *column == offset {
                return *other;
            }
        }
    }
    cell
}

/// The cells of a row of the changed tables.
fn cells_by(
    alloc: Global,
    changes: &[Change],
    table: TableId,
    row: usize,
    cells: &'static [Written],
) -> Result<Vec<Cell>, Fail> {
    let mut made = Vec::new(alloc);
    for (offset, cell) in written_by(changes, table, row, cells).iter().enumerate() {
        let written = cell_by(changes, table, row, offset, *cell);
        made.push(written.cell(alloc)?)?;
    }
    Ok(made)
}

/// The tables, changed.
pub fn tables_with(alloc: Global, changes: &[Change]) -> Result<Tables, Fail> {
    let mut tables = Tables::new(alloc, version_by(changes))?;
    tables.set_user(Vec::from_slice(alloc, user_by(changes))?);
    for (table, rows) in WHOLE {
        if has_rows(changes, table) {
            for (offset, cells) in rows.iter().enumerate() {
                let row = offset.saturating_add(1);
                tables.push(table, cells_by(alloc, changes, table, row, cells)?)?;
            }
        }
    }
    Ok(tables)
}
