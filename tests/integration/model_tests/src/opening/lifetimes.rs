//! What a view returns outlives the view, and lives as long as the bytes. `tests/borrow/lifetimes` compiles this file
//! alone, as a crate, so it uses nothing else of this one.

use opening::{CellRef, open_root};
use sample_roots::{ONE_MODULE, TWO_TYPES, changed};
use schema::TableId;
use std::test::Fail;

/// The name of the module of a root, which outlives the view.
fn module_name(root: &[u8]) -> Option<&str> {
    let view = open_root(root).ok()?;
    if view.count(TableId::Module) == 0 {
        return None;
    }
    match view.cell(TableId::Module, 1, 1) {
        CellRef::Text(name) => Some(name),
        _ => None,
    }
}

/// The version and the signature of the first field of a root, which outlive the view.
fn version_and_field(root: &[u8]) -> Option<(&str, &[u8])> {
    let view = open_root(root).ok()?;
    if view.count(TableId::Field) == 0 {
        return None;
    }
    match view.cell(TableId::Field, 1, 2) {
        CellRef::Sig(blob) => Some((view.version(), blob)),
        _ => None,
    }
}

#[test]
fn texts_and_blobs_outlive_the_view(rt: HostRuntime) -> Result<(), Fail> {
    let module = Vec::from_slice(rt.alloc(), &ONE_MODULE)?;
    assert_eq!(rt; module_name(module.as_slice()), Some("a.dll"));
    let types = Vec::from_slice(rt.alloc(), &TWO_TYPES)?;
    let (version, field) = version_and_field(types.as_slice()).ok_or("no field")?;
    assert_eq!(rt; version, "v4.0.30319");
    assert_eq!(rt; field, b"\x06\x08".as_slice());
    Ok(())
}

#[test]
fn texts_live_as_long_as_the_bytes(rt: HostRuntime) -> Result<(), Fail> {
    let bytes = Vec::from_slice(rt.alloc(), &ONE_MODULE)?;
    let name = module_name(bytes.as_slice());
    assert_eq!(rt; name, Some("a.dll"));
    drop(bytes);
    Ok(())
}

#[test]
fn a_text_lies_where_its_bytes_are(rt: HostRuntime) -> Result<(), Fail> {
    for (offset, name) in [(121, "z.dll"), (122, "azdll"), (125, "a.dlz")] {
        let root = changed(rt.alloc(), &ONE_MODULE, &[(offset, b'z')])?;
        assert_eq!(rt; module_name(root.as_slice()), Some(name));
    }
    Ok(())
}
