use crate::model::both::{collected, run_in_model};
use crate::shown::{Keyed, Members};
use model::{Cell, Model, SigKind, TableId, Tables, Text, Token, decode};
use sample_tables::model_of;
use std::alloc::Global;
use std::test::Fail;

/// A reference to a row.
fn row(table: TableId, row: u32) -> Cell {
    Cell::Ref(Some(Token { table, row }))
}

/// A cell of a text.
fn text_cell(alloc: Global, text: &str) -> Result<Cell, Fail> {
    Ok(Cell::Text(Text::from(String::from_str(alloc, text)?)))
}

/// Adds a type, by its names and by where its runs of fields and methods start.
fn push_type(
    alloc: Global,
    tables: &mut Tables,
    namespace: &str,
    name: &str,
    starts: [u32; 2],
) -> Result<(), Fail> {
    let [fields, methods] = starts;
    let name = text_cell(alloc, name)?;
    let namespace = text_cell(alloc, namespace)?;
    let cells = vec![in alloc;
        Cell::Number(0),
        name,
        namespace,
        Cell::Ref(None),
        Cell::Start(fields),
        Cell::Start(methods),
    ]?;
    tables.push(TableId::TypeDef, cells)?;
    Ok(())
}

/// The rows of a model's table with a key, and how many keys were read.
fn rows_by_key(alloc: Global, model: &Model, table: TableId, token: Token) -> Result<Keyed, Fail> {
    collected(alloc, model.by_key(table, token))
}

#[test]
fn tables_are_looked_up_as_they_were_made(rt: HostRuntime) -> Result<(), Fail> {
    let alloc = rt.alloc();
    let mut tables = Tables::new(alloc, "v4.0.30319")?;
    push_type(alloc, &mut tables, "", "<Module>", [1, 1])?;
    push_type(alloc, &mut tables, "N", "C", [1, 1])?;
    push_type(alloc, &mut tables, "N", "C", [3, 1])?;
    for name in ["a", "b", "c"] {
        let name = text_cell(alloc, name)?;
        let signature = decode(alloc, &[0x06, 0x08], SigKind::Field)?;
        tables.push(
            TableId::Field,
            vec![in alloc; Cell::Number(1), name, Cell::Sig(signature)]?,
        )?;
    }
    let model = model_of(tables)?;
    assert_eq!(rt; model.find_type("N", "C"), Some(2));
    assert_eq!(rt; model.find_type("", "C"), None);
    for (row, fields) in [(1, 1..1), (2, 1..3), (3, 3..4)] {
        assert_eq!(rt; run_in_model(&model, Members::Fields, row), Some(fields));
        assert_eq!(rt; run_in_model(&model, Members::Methods, row), Some(1..1));
    }
    Ok(())
}

#[test]
fn keys_after_padding_and_tags_are_found(rt: HostRuntime) -> Result<(), Fail> {
    let alloc = rt.alloc();
    let mut tables = Tables::new(alloc, "v4.0.30319")?;
    push_type(alloc, &mut tables, "", "<Module>", [1, 1])?;
    push_type(alloc, &mut tables, "", "C", [1, 1])?;
    // Layouts of the types 2, 1, 2, which are out of order, and constants of no rows.
    for parent in [2, 1, 2] {
        let cells = vec![in alloc;
            Cell::Number(8),
            Cell::Number(64),
            row(TableId::TypeDef, parent),
        ]?;
        tables.push(TableId::ClassLayout, cells)?;
    }
    // Parameters of the types 1, 1, 2.
    for owner in [1, 1, 2] {
        let name = text_cell(alloc, "T")?;
        let cells = vec![in alloc;
            Cell::Number(0),
            Cell::Number(0),
            row(TableId::TypeDef, owner),
            name,
        ]?;
        tables.push(TableId::GenericParam, cells)?;
    }
    let model = model_of(tables)?;
    for (table, row, layouts, params) in [
        (TableId::TypeDef, 1, [2].as_slice(), [1, 2].as_slice()),
        (TableId::TypeDef, 2, &[1, 3], &[3]),
        (TableId::TypeDef, 0, &[], &[]),
        (TableId::TypeDef, 3, &[], &[]),
        (TableId::MethodDef, 1, &[], &[]),
        (TableId::Field, 1, &[], &[]),
    ] {
        let token = Token { table, row };
        let (found, reads) = rows_by_key(alloc, &model, TableId::ClassLayout, token)?;
        assert_eq!(rt; found.as_slice(), layouts);
        assert_eq!(rt; reads, 0);
        let (found, reads) = rows_by_key(alloc, &model, TableId::GenericParam, token)?;
        assert_eq!(rt; found.as_slice(), params);
        assert!(rt; reads <= 6);
        let (none, reads) = rows_by_key(alloc, &model, TableId::Constant, token)?;
        assert!(rt; none.is_empty() && reads <= 2);
    }
    Ok(())
}
