//! Tests of `tables`: cells, and the columns that take them.

use schema::{Coded, SigKind, TableId};
use signatures::decode;
use std::alloc::Global;
use std::process::Abort;
use std::test::Fail;
use tables::{Bytes, Cell, ColumnKind, Signature, Text, Token};

/// A field of a 4-byte integer.
fn field(rt: &impl Abort, alloc: Global) -> Signature {
    decode(alloc, &[0x06, 0x08], SigKind::Field).expect(rt, "spelled")
}

/// A cell of each form.
fn each_cell(rt: &impl Abort, alloc: Global) -> Result<Vec<Cell>, Fail> {
    let token = Token {
        table: TableId::TypeRef,
        row: 2,
    };
    let mut cells = Vec::new(alloc);
    cells.push(Cell::Number(0x100))?;
    cells.push(Cell::Text(Text::from(String::from_str(alloc, "é")?)))?;
    cells.push(Cell::Bytes(Bytes::from(Vec::from_slice(alloc, "é".as_bytes())?)))?;
    cells.push(Cell::Guid(None))?;
    cells.push(Cell::Guid(Some([1; 16])))?;
    cells.push(Cell::Ref(None))?;
    cells.push(Cell::Ref(Some(token)))?;
    cells.push(Cell::Start(0x100))?;
    cells.push(Cell::Sig(field(rt, alloc)))?;
    Ok(cells)
}

/// Each cell is equal to itself where it was made once more, and to no other.
#[test]
fn cells_are_compared_by_what_they_say(rt: HostRuntime) -> Result<(), Fail> {
    let cells = each_cell(&rt, rt.alloc())?;
    let others = each_cell(&rt, rt.alloc())?;
    for (offset, cell) in cells.iter().enumerate() {
        for (other_offset, other) in others.iter().enumerate() {
            assert_eq!(rt; cell == other, offset == other_offset, "{cell:?} {other:?}");
        }
    }
    Ok(())
}

/// What a text and bytes are made of is given back.
#[test]
fn contents_are_given_back(rt: HostRuntime) -> Result<(), Fail> {
    let text = Text::from(String::from_str(rt.alloc(), "Main")?);
    assert_eq!(rt; text.as_str(), "Main");
    let string = text.into_string();
    assert_eq!(rt; string.as_str(), "Main");
    let bytes = Bytes::from(Vec::from_slice(rt.alloc(), &[1, 2])?);
    assert_eq!(rt; bytes.as_slice(), [1, 2].as_slice());
    let vec = bytes.into_vec();
    assert_eq!(rt; vec.as_slice(), [1, 2].as_slice());
    Ok(())
}

/// Which of the cells each kind of column takes.
#[test]
fn columns_take_cells_of_their_kinds(rt: HostRuntime) -> Result<(), Fail> {
    let cells = each_cell(&rt, rt.alloc())?;
    let taken: [(ColumnKind, &[usize]); 13] = [
        (ColumnKind::U8, &[]),
        (ColumnKind::U16, &[0]),
        (ColumnKind::U32, &[0]),
        (ColumnKind::Padding, &[]),
        (ColumnKind::Text, &[1]),
        (ColumnKind::Blob, &[2]),
        (ColumnKind::Guid, &[3, 4]),
        (ColumnKind::Row(TableId::TypeRef), &[5, 6]),
        (ColumnKind::Row(TableId::TypeDef), &[5]),
        // TypeRef is the second of TypeDefOrRef, and not in MethodDefOrRef.
        (ColumnKind::Coded(Coded::TypeDefOrRef), &[5, 6]),
        (ColumnKind::Coded(Coded::MethodDefOrRef), &[5]),
        (ColumnKind::List(TableId::Field), &[7]),
        (ColumnKind::Signature(SigKind::Field), &[8]),
    ];
    for (kind, offsets) in taken {
        for (offset, cell) in cells.iter().enumerate() {
            assert_eq!(rt;
                cell.is_of_kind(kind),
                offsets.contains(&offset),
                "{kind:?} {cell:?}"
            );
        }
    }
    Ok(())
}

/// Which cells a heap can hold.
#[test]
fn heaps_hold_texts_without_nul(rt: HostRuntime) -> Result<(), Fail> {
    for cell in &each_cell(&rt, rt.alloc())? {
        assert!(rt; cell.is_storable(), "{cell:?}");
    }
    for (text, is_storable) in [("", true), ("\u{1}", true), ("\0", false), ("a\0b", false)] {
        let cell = Cell::Text(Text::from(String::from_str(rt.alloc(), text)?));
        assert_eq!(rt; cell.is_storable(), is_storable, "{cell:?}");
    }
    Ok(())
}

/// Which columns hold the signature of a field, and that any hold a cell that is none.
#[test]
fn columns_hold_signatures_of_their_kinds(rt: HostRuntime) {
    let cell = Cell::Sig(field(&rt, rt.alloc()));
    for (kind, is_held) in [
        (SigKind::Field, true),
        (SigKind::MethodDef, false),
        (SigKind::MemberRef, true),
        (SigKind::StandAlone, true),
        (SigKind::Property, false),
        (SigKind::TypeSpec, false),
        (SigKind::Instance, false),
    ] {
        assert_eq!(rt;
            cell.is_held(ColumnKind::Signature(kind)),
            is_held,
            "{kind:?}"
        );
        assert!(rt; Cell::Number(0).is_held(ColumnKind::Signature(kind)));
    }
    assert!(rt; cell.is_held(ColumnKind::Blob));
}
