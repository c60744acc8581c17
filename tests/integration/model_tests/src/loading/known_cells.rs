use crate::reports::{fault_of_root, has_cell, model_in, text_in};
use crate::form::Form;
use owned_model::load_root;
use tables::Cell;
use sample_roots::{
    FIELD, ONE_MODULE, RootBuilder, TWO_TYPES, changed, root_of_long_text, root_of_params,
    root_of_starts, type_row,
};
use schema::TableId;
use std::test::Fail;

#[test]
fn null_starts_are_those_of_the_next_owners(rt: HostRuntime) -> Result<(), Fail> {
    let root = root_of_starts(rt.alloc(), [1, 0, 3])?;
    let model = model_in(rt.alloc(), Form::Root, root.as_slice())?;
    for (row, start) in [(1, 1), (2, 3), (3, 3)] {
        assert!(rt; has_cell(&model, TableId::TypeDef, row, 4, Cell::Start(start)));
    }
    Ok(())
}

#[test]
fn many_null_starts_are_loaded(rt: HostRuntime) -> Result<(), Fail> {
    let mut root = RootBuilder::new(rt.alloc());
    root.row(0x02, &type_row(1, 1))?;
    for _ in 0..10_000 {
        root.row(0x02, &type_row(0, 0))?;
    }
    root.row(0x04, FIELD)?;
    root.heap("#Blob", b"\0\x02\x06\x08")?;
    let root = root.finish()?;
    let model = model_in(rt.alloc(), Form::Root, root.as_slice())?;
    for (row, fields, methods) in [(1, 1, 1), (2, 2, 1), (10_001, 2, 1)] {
        assert!(rt; has_cell(&model, TableId::TypeDef, row, 4, Cell::Start(fields)));
        assert!(rt; has_cell(&model, TableId::TypeDef, row, 5, Cell::Start(methods)));
    }
    Ok(())
}

#[test]
fn a_run_starts_after_65535_members(rt: HostRuntime) -> Result<(), Fail> {
    let root = root_of_params(rt.alloc())?;
    let model = model_in(rt.alloc(), Form::Root, root.as_slice())?;
    for (row, start) in [(1, 1), (2, 65536)] {
        assert!(rt; has_cell(&model, TableId::MethodDef, row, 5, Cell::Start(start)));
    }
    assert_eq!(rt; model.count(TableId::Param), 65535);
    Ok(())
}

#[test]
fn many_rows_name_one_long_text(rt: HostRuntime) -> Result<(), Fail> {
    let root = root_of_long_text(rt.alloc())?;
    assert_eq!(rt; root.len(), 31096);
    let model = load_root(rt.alloc(), root.as_slice())?;
    for (row, len) in [(1, 7000), (2, 6999), (4000, 3001)] {
        let name = text_in(&model, TableId::TypeRef, row, 1).ok_or("no text")?;
        assert_eq!(rt; name.len(), len);
    }
    Ok(())
}

#[test]
fn changed_indexes_name_what_stands_there(rt: HostRuntime) -> Result<(), Fail> {
    let alloc = rt.alloc();
    let other = changed(alloc, &ONE_MODULE, &[(110, 7)])?;
    let model = model_in(alloc, Form::Root, other.as_slice())?;
    assert_eq!(rt; text_in(&model, TableId::Module, 1, 1), Some(""));
    // The GUIDs begin at 120, over the strings.
    let other = changed(alloc, &ONE_MODULE, &[(64, 0x78)])?;
    let model = model_in(alloc, Form::Root, other.as_slice())?;
    let over = [
        0, 0x61, 0x2E, 0x64, 0x6C, 0x6C, 0, 0, 0, 1, 2, 3, 4, 5, 6, 7,
    ];
    assert!(rt; has_cell(&model, TableId::Module, 1, 2, Cell::Guid(Some(over))));
    for (offset, byte, fault) in [(112, 2, (504, 112)), (110, 8, (501, 110))] {
        let other = changed(alloc, &ONE_MODULE, &[(offset, byte)])?;
        assert_eq!(rt; fault_of_root(alloc, other.as_slice())?, Some(fault));
    }
    Ok(())
}

#[test]
fn changed_starts_move_members(rt: HostRuntime) -> Result<(), Fail> {
    let alloc = rt.alloc();
    let types = model_in(alloc, Form::Root, &TWO_TYPES)?;
    // A null start of the first type is that of the second; one of the second is after the last field.
    let first = changed(alloc, &TWO_TYPES, &[(126, 0)])?;
    assert!(rt; model_in(alloc, Form::Root, first.as_slice())? == types);
    let second = changed(alloc, &TWO_TYPES, &[(140, 0)])?;
    let second = model_in(alloc, Form::Root, second.as_slice())?;
    assert!(rt; has_cell(&second, TableId::TypeDef, 2, 4, Cell::Start(3)));
    assert!(rt; second != types);
    Ok(())
}
