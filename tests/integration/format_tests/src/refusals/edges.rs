use crate::refusals::rule_order::{LONG, refusal_with};
use crate::zero_padded::refusal;
use owned_model::{Refusal, TableId};
use sample_tables::Written::{self, Bytes, NoRow, Number, Row, Sig, Start, Text};
use sample_tables::{Change, tables_of};
use signatures::SigKind;
use std::alloc::Global;
use std::test::Fail;

/// The code that tables are refused with which have a change, 0 where they are valid.
fn code_with(alloc: Global, change: Change) -> Result<u16, Fail> {
    Ok(match refusal_with(alloc, &[change])? {
        None => 0,
        Some(refused) => refused.code,
    })
}

#[test]
fn a_version_has_254_bytes_and_no_nul(rt: HostRuntime) -> Result<(), Fail> {
    let alloc = rt.alloc();
    let shorter = LONG.strip_suffix("e").ok_or("another end")?;
    assert_eq!(rt; shorter.len(), 254);
    for (version, code) in [
        ("", 0),
        (shorter, 0),
        (LONG, 302),
        ("v\0", 302),
        ("\0", 302),
    ] {
        assert_eq!(rt;
            code_with(alloc, Change::Version(version))?,
            code,
            "{version}"
        );
    }
    Ok(())
}

#[test]
fn user_bytes_are_a_multiple_of_four(rt: HostRuntime) -> Result<(), Fail> {
    for (user, code) in [
        (b"".as_slice(), 0),
        (b"\0", 510),
        (b"\0\0", 510),
        (b"\0\0\0", 510),
        (b"\0\0\0\0", 0),
        // They need not be user strings.
        (b"\xFF\xFF\xFF\xFF", 0),
        (b"\0\0\0\0\0", 510),
    ] {
        assert_eq!(rt;
            code_with(rt.alloc(), Change::User(user))?,
            code,
            "{user:?}"
        );
    }
    Ok(())
}

#[test]
fn cells_are_reported_on_both_sides_of_their_limits(rt: HostRuntime) -> Result<(), Fail> {
    for (table, row, offset, cell, code) in [
        (TableId::Constant, 3, 0, Number(0xFF), 0),
        (TableId::Constant, 3, 0, Number(0x100), 509),
        (TableId::Param, 3, 1, Number(0xFFFF), 0),
        (TableId::Param, 3, 1, Number(0x1_0000), 509),
        (TableId::TypeDef, 3, 0, Number(0xFFFF_FFFF), 0),
        (TableId::Param, 3, 2, Text("\0"), 509),
        (TableId::Param, 3, 2, Text("\u{1}"), 0),
        (TableId::Param, 3, 2, Bytes(b"z"), 509),
        (TableId::Constant, 3, 2, Bytes(b"\0"), 0),
        (TableId::Constant, 3, 2, Text(""), 509),
        (TableId::TypeRef, 2, 0, Row(TableId::TypeRef, 3), 0),
        (TableId::TypeRef, 2, 0, Row(TableId::TypeRef, 4), 506),
        (TableId::TypeRef, 2, 0, Row(TableId::TypeRef, 0), 506),
        (
            TableId::TypeRef,
            2,
            0,
            Row(TableId::Module, 0xFFFF_FFFF),
            506,
        ),
        (TableId::TypeRef, 2, 0, Row(TableId::ModuleRef, 1), 506),
        (TableId::TypeRef, 2, 0, Row(TableId::Field, 1), 509),
        (TableId::Event, 2, 2, NoRow, 0),
        (TableId::MemberRef, 2, 0, NoRow, 506),
        (TableId::EventMap, 2, 0, NoRow, 506),
        (TableId::TypeDef, 3, 4, Start(4), 0),
        (TableId::TypeDef, 3, 4, Start(5), 507),
        (TableId::TypeDef, 3, 4, Start(0xFFFF_FFFF), 507),
        (TableId::TypeDef, 3, 4, Start(2), 0),
        (TableId::TypeDef, 3, 4, Start(1), 602),
        (TableId::TypeDef, 3, 4, Number(3), 509),
        (
            TableId::Field,
            3,
            2,
            Sig(SigKind::Field, b"\x06\x12\x0D"),
            0,
        ),
        (
            TableId::Field,
            3,
            2,
            Sig(SigKind::Field, b"\x06\x12\x01"),
            702,
        ),
        (TableId::Field, 3, 2, Bytes(b"\x06\x08"), 509),
    ] {
        let change = Change::Cell(table, row, offset, cell);
        assert_eq!(rt; code_with(rt.alloc(), change)?, code, "{change:?}");
    }
    Ok(())
}

/// Cells of a row of Param, and the code that it is refused with.
const PARAMS: [(&[Written], u16); 4] = [
    (&[], 509),
    (&[Number(0), Number(0)], 509),
    (&[Number(0), Number(0), Text("x")], 0),
    (&[Number(0), Number(0), Text("x"), Number(0)], 509),
];

#[test]
fn a_row_has_as_many_cells_as_its_table(rt: HostRuntime) -> Result<(), Fail> {
    for (cells, code) in PARAMS {
        let change = Change::Cells(TableId::Param, 2, cells);
        assert_eq!(rt; code_with(rt.alloc(), change)?, code, "{change:?}");
    }
    Ok(())
}

/// Members of each kind: their table, its number and a row.
const MEMBERS: [(TableId, u8, &[Written]); 5] = [
    (
        TableId::Field,
        0x04,
        &[Number(0), Text(""), Sig(SigKind::Field, b"\x06\x08")],
    ),
    (
        TableId::MethodDef,
        0x06,
        &[
            Number(0),
            Number(0),
            Number(0),
            Text(""),
            Sig(SigKind::MethodDef, b"\0\0\x01"),
            Start(1),
        ],
    ),
    (TableId::Param, 0x08, &[Number(0), Number(0), Text("")]),
    (TableId::Event, 0x14, &[Number(0), Text(""), NoRow]),
    (
        TableId::Property,
        0x17,
        &[Number(0), Text(""), Sig(SigKind::Property, b"\x28\0\x08")],
    ),
];

#[test]
fn members_have_owners(rt: HostRuntime) -> Result<(), Fail> {
    for (table, number, row) in MEMBERS {
        let reported = Refusal {
            code: 603,
            table: number,
            row: 1,
            column: 0,
        };
        let refused = refusal(tables_of(rt.alloc(), "", &[(table, row)])?);
        assert_eq!(rt; refused.map(|refused| refused.0), Some(reported));
    }
    Ok(())
}

#[test]
fn a_start_of_no_members_is_1(rt: HostRuntime) -> Result<(), Fail> {
    for (start, code) in [(0, Some(602)), (1, None), (2, Some(507))] {
        let row = [Number(0), Text(""), Text(""), NoRow, Start(start), Start(1)];
        let refused = refusal(tables_of(rt.alloc(), "", &[(TableId::TypeDef, &row)])?);
        assert_eq!(rt; refused.map(|refused| refused.0.code), code);
    }
    Ok(())
}
