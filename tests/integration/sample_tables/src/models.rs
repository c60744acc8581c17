use crate::written_cells::Written::{self, NoRow, Number, Sig, Start, Text as Says};
use crate::written_cells::cells_of;
use owned_model::{Cell, Model, TableId, Tables, Text};
use signatures::SigKind;
use std::alloc::Global;
use std::test::Fail;

/// The version of the models but of that without rows.
pub const VERSION: &str = "v4.0.30319";

/// The GUID of the module.
pub const GUID: [u8; 16] = [0, 1, 2, 3, 4, 5, 6, 7, 8, 9, 10, 11, 12, 13, 14, 15];

/// Tables of rows, in their order.
pub fn tables_of(
    alloc: Global,
    version: &str,
    rows: &[(TableId, &[Written])],
) -> Result<Tables, Fail> {
    let mut tables = Tables::new(alloc, version)?;
    for (table, row) in rows {
        tables.push(*table, cells_of(alloc, *row)?)?;
    }
    Ok(tables)
}

/// The model of valid tables.
pub fn model_of(tables: Tables) -> Result<Model, Fail> {
    match Model::from_tables(tables) {
        Ok(model) => Ok(model),
        Err((refused, _)) => Err(Fail::from(refused)),
    }
}

/// A model of the empty version and no rows.
pub fn model_of_no_rows(alloc: Global) -> Result<Model, Fail> {
    model_of(Tables::new(alloc, "")?)
}

/// A model of one row of Module, with this name and GUID.
pub fn model_of_module(alloc: Global, name: &str, guid: Option<[u8; 16]>) -> Result<Model, Fail> {
    let mut tables = Tables::new(alloc, VERSION)?;
    let name = Text::from(String::from_str(alloc, name)?);
    let row = vec![in alloc;
        Cell::Number(0),
        Cell::Text(name),
        Cell::Guid(guid),
        Cell::Guid(None),
        Cell::Guid(None),
    ]?;
    tables.push(TableId::Module, row)?;
    model_of(tables)
}

/// The rows of two types, of which the second has two fields and a method.
const TWO_TYPES: [(TableId, &[Written]); 5] = [
    (
        TableId::TypeDef,
        &[
            Number(0),
            Says("<Module>"),
            Says(""),
            NoRow,
            Start(1),
            Start(1),
        ],
    ),
    (
        TableId::TypeDef,
        &[
            Number(1_048_577),
            Says("C"),
            Says("N"),
            NoRow,
            Start(1),
            Start(1),
        ],
    ),
    (
        TableId::Field,
        &[Number(1), Says("a"), Sig(SigKind::Field, b"\x06\x08")],
    ),
    (
        TableId::Field,
        &[Number(1), Says("b"), Sig(SigKind::Field, b"\x06\x08")],
    ),
    (
        TableId::MethodDef,
        &[
            Number(0),
            Number(0),
            Number(6),
            Says("M"),
            Sig(SigKind::MethodDef, b"\0\0\x01"),
            Start(1),
        ],
    ),
];

/// A model of two types, of which the second has two fields and a method.
pub fn model_of_two_types(alloc: Global) -> Result<Model, Fail> {
    model_of(tables_of(alloc, VERSION, &TWO_TYPES)?)
}
