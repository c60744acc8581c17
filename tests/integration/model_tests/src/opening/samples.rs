use crate::reports::fault_of_root;
use crate::shown::cell;
use opening::{CellRef, View, open_root};
use sample_roots::{NO_ROWS, ONE_MODULE, TWO_TYPES, changed};
use sample_tables::GUID;
use schema::TableId;
use std::test::Fail;

/// A cell of the first row of Module.
fn module_cell<'a>(view: &View<'a>, column: usize) -> Option<CellRef<'a>> {
    cell(view, TableId::Module, 1, column)
}

/// Whether two views show the same module.
pub fn is_same_module(one: &View, other: &View) -> bool {
    (0..5usize).all(|column| module_cell(one, column) == module_cell(other, column))
}

#[test]
fn shows_the_sample_of_one_module(rt: HostRuntime) -> Result<(), Fail> {
    let view = open_root(&ONE_MODULE)?;
    assert_eq!(rt; view.version(), "v4.0.30319");
    assert_eq!(rt; module_cell(&view, 0), Some(CellRef::Number(0)));
    assert_eq!(rt; module_cell(&view, 1), Some(CellRef::Text("a.dll")));
    assert_eq!(rt; module_cell(&view, 2), Some(CellRef::Guid(Some(GUID))));
    assert_eq!(rt; module_cell(&view, 3), Some(CellRef::Guid(None)));
    assert_eq!(rt; module_cell(&view, 4), Some(CellRef::Guid(None)));
    Ok(())
}

#[test]
fn shows_the_sample_of_two_types(rt: HostRuntime) -> Result<(), Fail> {
    let view = open_root(&TWO_TYPES)?;
    assert_eq!(rt; view.version(), "v4.0.30319");
    assert_eq!(rt; view.count(TableId::TypeDef), 2);
    assert_eq!(rt; view.count(TableId::Field), 2);
    assert_eq!(rt; view.find_type("N", "C"), Some(2));
    assert_eq!(rt; view.find_type("", "C"), None);
    for (table, row, column, expected) in [
        (TableId::TypeDef, 2, 0, CellRef::Number(1_048_577)),
        (TableId::TypeDef, 2, 1, CellRef::Text("C")),
        (TableId::TypeDef, 2, 3, CellRef::Ref(None)),
        (TableId::Field, 2, 1, CellRef::Text("b")),
        (TableId::MethodDef, 1, 3, CellRef::Text("M")),
        (TableId::MethodDef, 1, 4, CellRef::Sig(b"\0\0\x01")),
    ] {
        assert_eq!(rt;
            cell(&view, table, row, column),
            Some(expected),
            "in {column} of {row}"
        );
    }
    if 2 <= view.count(TableId::TypeDef) {
        assert_eq!(rt; view.fields_of(2), 1..3);
        assert_eq!(rt; view.methods_of(2), 1..2);
    }
    Ok(())
}

#[test]
fn shows_the_sample_of_no_rows(rt: HostRuntime) -> Result<(), Fail> {
    let view = open_root(&NO_ROWS)?;
    assert_eq!(rt; view.version(), "");
    assert!(rt; TableId::all().iter().all(|table| view.count(*table) == 0));
    Ok(())
}

#[test]
fn a_changed_byte_shows(rt: HostRuntime) -> Result<(), Fail> {
    let alloc = rt.alloc();
    // The name at 110 is that of the NUL after `a.dll`, and then none; the GUID at 112 is none.
    let root = changed(alloc, &ONE_MODULE, &[(110, 7)])?;
    let view = open_root(root.as_slice())?;
    assert_eq!(rt; module_cell(&view, 1), Some(CellRef::Text("")));
    let root = changed(alloc, &ONE_MODULE, &[(110, 8)])?;
    assert_eq!(rt; fault_of_root(alloc, root.as_slice())?, Some((501, 110)));
    let root = changed(alloc, &ONE_MODULE, &[(112, 2)])?;
    assert_eq!(rt; fault_of_root(alloc, root.as_slice())?, Some((504, 112)));
    // The GUIDs begin at 120, over the strings.
    let root = changed(alloc, &ONE_MODULE, &[(64, 0x78)])?;
    let view = open_root(root.as_slice())?;
    let over = [
        0, 0x61, 0x2E, 0x64, 0x6C, 0x6C, 0, 0, 0, 1, 2, 3, 4, 5, 6, 7,
    ];
    assert_eq!(rt; module_cell(&view, 2), Some(CellRef::Guid(Some(over))));
    Ok(())
}

#[test]
fn a_clone_shows_the_same(rt: HostRuntime) -> Result<(), Fail> {
    let view = open_root(&ONE_MODULE)?;
    let clone = view.clone()?;
    assert!(rt; is_same_module(&view, &clone));
    Ok(())
}
