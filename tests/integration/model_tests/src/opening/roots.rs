use crate::reports::fault_of_root;
use crate::opening::built_roots::{changed, one_module, two_types};
use crate::shown::{are_same, cell};
use opening::{CellRef, open_root};
use sample_roots::{RootBuilder, root_of_implementation};
use sample_tables::GUID;
use schema::{TableId, Token};
use std::alloc::Global;
use std::test::Fail;

/// A reference to a row.
fn row(table: TableId, row: u32) -> CellRef<'static> {
    CellRef::Ref(Some(Token { table, row }))
}

#[test]
fn shows_one_module(rt: HostRuntime) -> Result<(), Fail> {
    let root = one_module(rt.alloc())?;
    assert_eq!(rt; root.len(), 144);
    let view = open_root(root.as_slice())?;
    assert_eq!(rt; view.version(), "v4.0.30319");
    assert_eq!(rt; view.user(), b"".as_slice());
    for table in TableId::all() {
        let count = if *table == TableId::Module { 1 } else { 0 };
        assert_eq!(rt; view.count(*table), count);
    }
    for (column, expected) in [
        (0, CellRef::Number(0)),
        (1, CellRef::Text("a.dll")),
        (2, CellRef::Guid(Some(GUID))),
        (3, CellRef::Guid(None)),
        (4, CellRef::Guid(None)),
    ] {
        assert_eq!(rt;
            cell(&view, TableId::Module, 1, column),
            Some(expected),
            "in {column}"
        );
    }
    Ok(())
}

#[test]
fn shows_two_types(rt: HostRuntime) -> Result<(), Fail> {
    let root = two_types(rt.alloc())?;
    assert_eq!(rt; root.len(), 200);
    let view = open_root(root.as_slice())?;
    for (table, row, column, expected) in [
        (TableId::TypeDef, 1, 1, CellRef::Text("<Module>")),
        (TableId::TypeDef, 1, 2, CellRef::Text("")),
        (TableId::TypeDef, 1, 3, CellRef::Ref(None)),
        (TableId::TypeDef, 1, 4, CellRef::Start(1)),
        (TableId::TypeDef, 2, 0, CellRef::Number(1_048_577)),
        (TableId::TypeDef, 2, 1, CellRef::Text("C")),
        (TableId::TypeDef, 2, 2, CellRef::Text("N")),
        (TableId::TypeDef, 2, 5, CellRef::Start(1)),
        (TableId::Field, 1, 1, CellRef::Text("a")),
        (TableId::Field, 2, 0, CellRef::Number(1)),
        (TableId::Field, 2, 2, CellRef::Sig(b"\x06\x08")),
        (TableId::MethodDef, 1, 2, CellRef::Number(6)),
        (TableId::MethodDef, 1, 3, CellRef::Text("M")),
        (TableId::MethodDef, 1, 4, CellRef::Sig(b"\0\0\x01")),
        (TableId::MethodDef, 1, 5, CellRef::Start(1)),
    ] {
        assert_eq!(rt;
            cell(&view, table, row, column),
            Some(expected),
            "in {column} of {row}"
        );
    }
    Ok(())
}

#[test]
fn shows_a_root_of_no_rows(rt: HostRuntime) -> Result<(), Fail> {
    let mut root = RootBuilder::new(rt.alloc());
    root.version = "";
    let root = root.finish()?;
    assert_eq!(rt; root.len(), 60);
    let view = open_root(root.as_slice())?;
    assert_eq!(rt; (view.version(), view.user()), ("", b"".as_slice()));
    assert!(rt; TableId::all().iter().all(|table| view.count(*table) == 0));
    Ok(())
}

#[test]
fn wide_heap_indexes_show_the_same(rt: HostRuntime) -> Result<(), Fail> {
    let mut wide = RootBuilder::new(rt.alloc());
    wide.heap_sizes = 7;
    wide.row(0x00, b"\0\0\x01\0\0\0\x01\0\0\0\0\0\0\0\0\0\0\0")?;
    wide.heap("#Strings", b"\0a.dll\0")?;
    wide.heap("#GUID", &GUID)?;
    let wide = wide.finish()?;
    assert_eq!(rt; wide.len(), 152);
    let narrow = one_module(rt.alloc())?;
    assert!(rt; are_same(&open_root(wide.as_slice())?, &open_root(narrow.as_slice())?));
    Ok(())
}

/// A root of one row of TypeRef, by a heap and the indexes of its name and its namespace.
fn root_of_names(alloc: Global, heap: &[u8], name: u8, namespace: u8) -> Result<Vec<u8>, Fail> {
    let mut root = RootBuilder::new(alloc);
    root.row(0x01, &[0, 0, name, 0, namespace, 0])?;
    root.heap("#Strings", heap)?;
    Ok(root.finish()?)
}

#[test]
fn a_text_within_a_text_is_the_same_as_one_of_its_own(rt: HostRuntime) -> Result<(), Fail> {
    let shared = root_of_names(rt.alloc(), b"\0Name\0".as_slice(), 1, 3)?;
    let apart = root_of_names(rt.alloc(), b"\0Name\0me\0".as_slice(), 1, 6)?;
    let view = open_root(shared.as_slice())?;
    assert!(rt; are_same(&view, &open_root(apart.as_slice())?));
    let other = root_of_names(rt.alloc(), b"\0Name\0".as_slice(), 1, 2)?;
    assert!(rt; !are_same(&view, &open_root(other.as_slice())?));
    assert_eq!(rt;
        cell(&view, TableId::TypeRef, 1, 1),
        Some(CellRef::Text("Name"))
    );
    assert_eq!(rt;
        cell(&view, TableId::TypeRef, 1, 2),
        Some(CellRef::Text("me"))
    );
    Ok(())
}

#[test]
fn many_rows_share_one_long_text(rt: HostRuntime) -> Result<(), Fail> {
    let alloc = rt.alloc();
    let mut root = RootBuilder::new(alloc);
    for index in 1..=4000u16 {
        let [low, high] = index.to_le_bytes();
        root.row(0x01, &[0, 0, low, high, 0, 0])?;
    }
    let heap = changed(changed(vec![in alloc; b'x'; 7002]?, 0, 0), 7001, 0);
    root.heap("#Strings", heap.as_slice())?;
    let root = root.finish()?;
    assert_eq!(rt; root.len(), 31096);
    let view = open_root(root.as_slice())?;
    for (row, len) in [(1, 7000), (2, 6999), (4000, 3001)] {
        let Some(CellRef::Text(name)) = cell(&view, TableId::TypeRef, row, 1) else {
            return Err(Fail::from("no text"));
        };
        assert_eq!(rt; name.len(), len);
    }
    Ok(())
}

#[test]
fn a_null_has_any_used_tag(rt: HostRuntime) -> Result<(), Fail> {
    let alloc = rt.alloc();
    let first = root_of_implementation(alloc, 0)?;
    let second = root_of_implementation(alloc, 1)?;
    let view = open_root(first.as_slice())?;
    assert!(rt; are_same(&view, &open_root(second.as_slice())?));
    assert_eq!(rt;
        cell(&view, TableId::ExportedType, 1, 4),
        Some(CellRef::Ref(None))
    );
    assert_eq!(rt;
        fault_of_root(alloc, root_of_implementation(alloc, 3)?.as_slice())?,
        Some((505, 84))
    );
    assert_eq!(rt;
        fault_of_root(alloc, root_of_implementation(alloc, 4)?.as_slice())?,
        Some((506, 84))
    );
    let itself = root_of_implementation(alloc, 6)?;
    let view = open_root(itself.as_slice())?;
    assert_eq!(rt;
        cell(&view, TableId::ExportedType, 1, 4),
        Some(row(TableId::ExportedType, 1))
    );
    Ok(())
}

#[test]
fn a_member_of_no_parent_is_refused(rt: HostRuntime) -> Result<(), Fail> {
    let mut root = RootBuilder::new(rt.alloc());
    root.row(0x0A, b"\0\0\0\0\x01\0")?;
    root.heap("#Blob", b"\0\x02\x06\x08")?;
    let root = root.finish()?;
    assert_eq!(rt; fault_of_root(rt.alloc(), root.as_slice())?, Some((506, 88)));
    Ok(())
}

#[test]
fn user_bytes_are_as_in_the_root(rt: HostRuntime) -> Result<(), Fail> {
    let user = b"\0\x05A\0B\0\0\x03'\0\x01\0".as_slice();
    let mut root = RootBuilder::new(rt.alloc());
    root.heap("#US", user)?;
    let root = root.finish()?;
    assert_eq!(rt; open_root(root.as_slice())?.user(), user);
    // The header of the stream is at 44, its size at 48: two bytes fewer.
    let cut = changed(root, 48, 10);
    assert_eq!(rt; open_root(cut.as_slice())?.user().len(), 10);
    Ok(())
}
