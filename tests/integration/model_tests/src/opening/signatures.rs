use crate::reports::fault_of_root;
use crate::shown::cell;
use opening::{CellRef, open_root};
use sample_roots::{RootBuilder, root_of_references, root_of_signature};
use schema::TableId;
use std::test::Fail;

/// Which cell of the one row of a table is its signature, and the offset of that cell.
fn signature_cell(table: TableId) -> (usize, u64) {
    match table {
        TableId::Field => (2, 148),
        TableId::MethodDef => (4, 160),
        TableId::MemberRef => (2, 168),
        TableId::StandAloneSig => (0, 170),
        TableId::Property => (2, 180),
        TableId::TypeSpec => (0, 182),
        _ => (1, 186),
    }
}

/// A table with a signature column, a blob, and the code of the fault that it is refused with.
const ENCODINGS: [(TableId, &[u8], Option<u16>); 27] = [
    (TableId::Field, b"\x06\x08", None),
    (TableId::Field, b"\x06\x10\x08", None),
    (TableId::Field, b"\x06\x08\0", Some(701)),
    (TableId::Field, b"\x06", Some(701)),
    (TableId::Field, b"", Some(701)),
    (TableId::Field, b"\0\0\x01", Some(701)),
    (TableId::MethodDef, b"\x20\x01\x01\x0E", None),
    (TableId::MethodDef, b"\x05\x01\x01\x41\x08", Some(701)),
    (TableId::MethodDef, b"\x05\x01\x01\x08\x41", Some(701)),
    (TableId::MethodDef, b"\x84\0\x01", Some(701)),
    (TableId::MemberRef, b"\x05\x01\x01\x41\x08", None),
    (TableId::MemberRef, b"\x05\x01\x01\x08\x41", Some(701)),
    (TableId::MemberRef, b"\x06\x08", None),
    (TableId::StandAloneSig, b"\x07\x02\x08\x45\x10\x08", None),
    (
        TableId::StandAloneSig,
        b"\x07\xDF\xFF\xFF\xFF\x08",
        Some(701),
    ),
    (TableId::Property, b"\x28\0\x08", None),
    (TableId::Property, b"\x08\0\x01", Some(701)),
    (TableId::TypeSpec, b"\x0F\x01", None),
    (TableId::TypeSpec, b"\x14\x08\0\0\0", Some(701)),
    // An index of two bytes, where one is enough.
    (TableId::TypeSpec, b"\x15\x12\x80\x05\x01\x08", None),
    (TableId::TypeSpec, b"\x12\x05", None),
    (TableId::TypeSpec, b"\x12\x07", Some(701)),
    (TableId::TypeSpec, b"\x12\x01", Some(702)),
    (TableId::TypeSpec, b"\x12\x09", Some(702)),
    (TableId::TypeSpec, b"\x12\x09\0", Some(701)),
    (TableId::MethodSpec, b"\x0A\x01\x08", None),
    (TableId::MethodSpec, b"\x0A\x01", Some(701)),
];

#[test]
fn blobs_are_encoded_by_the_grammar_of_their_column(rt: HostRuntime) -> Result<(), Fail> {
    for (table, blob, code) in ENCODINGS {
        let root = root_of_signature(rt.alloc(), table, blob)?;
        let (column, offset) = signature_cell(table);
        let fault = code.map(|code| (code, offset));
        let name = table.name();
        let found = fault_of_root(rt.alloc(), root.as_slice())?;
        assert_eq!(rt; found, fault, "{blob:?} of {name}");
        if let Ok(view) = open_root(root.as_slice()) {
            assert_eq!(rt; cell(&view, table, 1, column), Some(CellRef::Sig(blob)));
        }
    }
    Ok(())
}

#[test]
fn types_nest_128_deep(rt: HostRuntime) -> Result<(), Fail> {
    let alloc = rt.alloc();
    for (before, times, code) in [
        (b"\x1D".as_slice(), 127, None),
        (b"\x1D", 128, Some(701)),
        (b"\x1B\0\0", 127, None),
        (b"\x1B\0\0", 128, Some(701)),
    ] {
        let mut blob = Vec::new(alloc);
        for _ in 0..times {
            blob.extend_from_slice(before)?;
        }
        blob.push(0x08)?;
        let root = root_of_signature(alloc, TableId::TypeSpec, blob.as_slice())?;
        let fault = code.map(|code| (code, 182));
        assert_eq!(rt;
            fault_of_root(alloc, root.as_slice())?,
            fault,
            "{times} times {before:?}"
        );
    }
    Ok(())
}

#[test]
fn types_in_signatures_are_rows(rt: HostRuntime) -> Result<(), Fail> {
    // A required modifier of the second row of TypeRef, before a class of the first.
    for (references, fault) in [(2, None), (1, Some((702, 98)))] {
        let root = root_of_references(rt.alloc(), references)?;
        assert_eq!(rt; fault_of_root(rt.alloc(), root.as_slice())?, fault);
    }
    Ok(())
}

#[test]
fn cells_are_checked_before_signatures(rt: HostRuntime) -> Result<(), Fail> {
    for (nesting, fault) in [
        (b"\x01\0\x02\0".as_slice(), (506, 118)),
        (b"\x01\0\x01\0", (604, 118)),
    ] {
        let mut root = RootBuilder::new(rt.alloc());
        root.row(0x02, b"\0\0\0\0\0\0\0\0\0\0\x01\0\x01\0")?;
        root.row(0x04, b"\0\0\0\0\x01\0")?;
        root.row(0x29, nesting)?;
        root.heap("#Blob", b"\0\x03\x06\x08\0")?;
        let root = root.finish()?;
        assert_eq!(rt; fault_of_root(rt.alloc(), root.as_slice())?, Some(fault));
    }
    Ok(())
}
