//! Tests of `owned_model`: models of tables, whether they are equal, and which of their tables are in order of their keys.

use owned_model::{Model, TableId, Tables};
use sample_tables::Written::{self, Bytes, NoGuid, Number, Row, Text};
use sample_tables::{Change, cells_of, tables_with};
use schema::key;
use std::alloc::Global;
use std::test::Fail;

/// Whether a table is in order of its key; `None` where it has none.
fn order_of(model: &Model, table: TableId) -> Option<bool> {
    if key(table).is_some() {
        Some(model.in_order(table))
    } else {
        None
    }
}

/// Whether a table is in order of its key, in the model of tables.
fn order_in(tables: Tables, table: TableId) -> Result<Option<bool>, Fail> {
    match Model::from_tables(tables) {
        Ok(model) => Ok(order_of(&model, table)),
        Err((refused, _)) => Err(Fail::from(refused)),
    }
}

#[test]
fn keyed_tables_are_in_order_or_not(rt: HostRuntime) -> Result<(), Fail> {
    let alloc = rt.alloc();
    // By the row of a type, and by the coded number of a member: field 1 is 4, parameter 1 is 5, property 1
    // is 6, and field 2 is 8.
    for (table, row, parent, is_in_order) in [
        (TableId::InterfaceImpl, 1, Row(TableId::TypeDef, 1), true),
        (TableId::InterfaceImpl, 1, Row(TableId::TypeDef, 2), true),
        (TableId::InterfaceImpl, 1, Row(TableId::TypeDef, 3), false),
        (TableId::InterfaceImpl, 2, Row(TableId::TypeDef, 3), true),
        (TableId::InterfaceImpl, 3, Row(TableId::TypeDef, 1), false),
        (TableId::NestedClass, 1, Row(TableId::TypeDef, 3), true),
        (TableId::NestedClass, 2, Row(TableId::TypeDef, 2), true),
    ] {
        let change = Change::Cell(table, row, 0, parent);
        let tables = tables_with(alloc, &[change])?;
        assert_eq!(rt; order_in(tables, table)?, Some(is_in_order), "{change:?}");
    }
    for (row, parent, is_in_order) in [
        (1, Row(TableId::Param, 1), true),
        (1, Row(TableId::Property, 1), false),
        (2, Row(TableId::Property, 1), true),
        (2, Row(TableId::Field, 1), true),
        (2, Row(TableId::Field, 2), false),
        (3, Row(TableId::Field, 2), true),
        (3, Row(TableId::Field, 1), false),
    ] {
        let change = Change::Cell(TableId::Constant, row, 1, parent);
        let tables = tables_with(alloc, &[change])?;
        assert_eq!(rt;
            order_in(tables, TableId::Constant)?,
            Some(is_in_order),
            "{change:?}"
        );
    }
    Ok(())
}

#[test]
fn tables_of_no_rows_are_in_order(rt: HostRuntime) -> Result<(), Fail> {
    let Ok(model) = Model::from_tables(tables_with(rt.alloc(), &[])?) else {
        return Err(Fail::from("refused"));
    };
    for table in TableId::all() {
        let is_in_order = key(*table).map(|_| true);
        assert_eq!(rt; order_of(&model, *table), is_in_order, "{table:?}");
    }
    Ok(())
}

/// The whole tables with three custom attributes of these parents.
fn tables_of_attributes(alloc: Global, parents: [Written; 3]) -> Result<Tables, Fail> {
    let mut tables = tables_with(alloc, &[])?;
    for parent in parents {
        let cells = [parent, Row(TableId::MemberRef, 1), Bytes(b"")];
        tables.push(TableId::CustomAttribute, cells_of(alloc, &cells)?)?;
    }
    Ok(tables)
}

#[test]
fn no_order_is_asked_of_keyed_tables(rt: HostRuntime) -> Result<(), Fail> {
    let module = Row(TableId::Module, 1);
    let assembly = Row(TableId::AssemblyRef, 1);
    for (parents, is_in_order) in [
        ([module, assembly, assembly], true),
        ([assembly, assembly, module], false),
        ([assembly, module, assembly], false),
    ] {
        let tables = tables_of_attributes(rt.alloc(), parents)?;
        assert_eq!(rt;
            order_in(tables, TableId::CustomAttribute)?,
            Some(is_in_order)
        );
    }
    // The semantics of property 1 are 3, those of event 2 are 4.
    for (rows, is_in_order) in [
        ([Row(TableId::Property, 1), Row(TableId::Event, 2)], true),
        ([Row(TableId::Event, 2), Row(TableId::Property, 1)], false),
    ] {
        let mut tables = tables_with(rt.alloc(), &[])?;
        for row in rows {
            let cells = [Number(1), Row(TableId::MethodDef, 1), row];
            tables.push(TableId::MethodSemantics, cells_of(rt.alloc(), &cells)?)?;
        }
        assert_eq!(rt;
            order_in(tables, TableId::MethodSemantics)?,
            Some(is_in_order)
        );
    }
    Ok(())
}

/// The model of the changed tables.
fn model_with(alloc: Global, changes: &[Change]) -> Result<Model, Fail> {
    match Model::from_tables(tables_with(alloc, changes)?) {
        Ok(model) => Ok(model),
        Err((refused, _)) => Err(Fail::from(refused)),
    }
}

#[test]
fn a_model_is_what_its_tables_are(rt: HostRuntime) -> Result<(), Fail> {
    let alloc = rt.alloc();
    let tables = tables_with(alloc, &[])?;
    let model = model_with(alloc, &[])?;
    assert!(rt; *model.tables() == tables);
    assert_eq!(rt;
        (model.version(), model.user()),
        (tables.version(), tables.user())
    );
    for table in TableId::all() {
        assert_eq!(rt; model.count(*table) as usize, tables.count(*table));
    }
    if 3 <= model.count(TableId::Module) {
        let cells = cells_of(alloc, &[Number(0xFFFF), Text(""), NoGuid, NoGuid, NoGuid])?;
        assert!(rt; model.cells(TableId::Module, 2) == cells.as_slice());
    }
    Ok(())
}

#[test]
fn models_are_compared_by_what_they_say(rt: HostRuntime) -> Result<(), Fail> {
    let alloc = rt.alloc();
    let whole = model_with(alloc, &[])?;
    assert!(rt; whole == model_with(alloc, &[])?);
    for change in [
        Change::Version(""),
        Change::User(b""),
        Change::Cell(TableId::Module, 1, 1, Text("a.dl")),
        Change::Cell(TableId::AssemblyRef, 3, 3, Number(0xFFFE)),
        Change::NoRows(TableId::MethodSpec),
    ] {
        assert!(rt; model_with(alloc, &[change])? != whole, "{change:?}");
    }
    Ok(())
}
