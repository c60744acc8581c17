use crate::zero_padded::refusal;
use owned_model::{Refusal, TableId};
use sample_tables::Written::{NoGuid, NoRow, Number, Row, Sig, Start, Text};
use sample_tables::{Change, tables_with};
use signatures::SigKind;
use std::alloc::Global;
use std::test::Fail;

/// A version of 255 bytes.
pub const LONG: &str = "0123456789abcdef0123456789abcdef0123456789abcdef0123456789abcdef\
    0123456789abcdef0123456789abcdef0123456789abcdef0123456789abcdef\
    0123456789abcdef0123456789abcdef0123456789abcdef0123456789abcdef\
    0123456789abcdef0123456789abcdef0123456789abcdef0123456789abcde";

/// A change to the whole tables, by which they break one rule, and the code, the table, the row and
/// the column of their refusal.
type Broken = (Change, u16, u8, u32, usize);

/// From the first rule to the last.
const RULES: [Broken; 38] = [
    (Change::Version(LONG), 302, 0, 0, 0),
    (Change::User(b"\0\0"), 510, 0, 0, 0),
    // Cells, by table, row and column: four cells in place of five, and so on.
    (
        Change::Cells(TableId::Module, 1, &[Number(0), Text(""), NoGuid, NoGuid]),
        509,
        0x00,
        1,
        0,
    ),
    (
        Change::Cell(TableId::Module, 2, 0, Number(0x1_0000)),
        509,
        0x00,
        2,
        0,
    ),
    (Change::Cell(TableId::Module, 3, 4, NoRow), 509, 0x00, 3, 4),
    (
        Change::Cell(TableId::TypeRef, 1, 0, Row(TableId::TypeDef, 1)),
        509,
        0x01,
        1,
        0,
    ),
    (
        Change::Cell(TableId::TypeRef, 1, 1, Text("a\0b")),
        509,
        0x01,
        1,
        1,
    ),
    (
        Change::Cell(TableId::TypeRef, 1, 2, Number(1)),
        509,
        0x01,
        1,
        2,
    ),
    (
        Change::Cell(TableId::TypeDef, 1, 3, Row(TableId::TypeRef, 4)),
        506,
        0x02,
        1,
        3,
    ),
    (
        Change::Cell(TableId::TypeDef, 2, 4, Start(5)),
        507,
        0x02,
        2,
        4,
    ),
    (
        Change::Cell(TableId::TypeDef, 3, 3, Row(TableId::TypeSpec, 0)),
        506,
        0x02,
        3,
        3,
    ),
    (
        Change::Cell(TableId::TypeDef, 3, 5, Start(5)),
        507,
        0x02,
        3,
        5,
    ),
    (
        Change::Cell(TableId::InterfaceImpl, 2, 0, NoRow),
        506,
        0x09,
        2,
        0,
    ),
    (
        Change::Cell(TableId::InterfaceImpl, 3, 1, NoRow),
        506,
        0x09,
        3,
        1,
    ),
    (
        Change::Cells(
            TableId::MemberRef,
            3,
            &[Number(0), NoRow, Text("\0"), Start(9)],
        ),
        509,
        0x0A,
        3,
        0,
    ),
    (
        Change::Cell(TableId::Constant, 1, 0, Number(0x100)),
        509,
        0x0B,
        1,
        0,
    ),
    (
        Change::Cell(TableId::AssemblyRef, 2, 4, Text("")),
        509,
        0x23,
        2,
        4,
    ),
    (
        Change::Cell(TableId::AssemblyRef, 2, 8, NoGuid),
        509,
        0x23,
        2,
        8,
    ),
    (
        Change::Cell(TableId::NestedClass, 3, 1, Row(TableId::TypeDef, 4)),
        506,
        0x29,
        3,
        1,
    ),
    // Runs of fields, methods, parameters, events and properties.
    (
        Change::Cell(TableId::TypeDef, 1, 4, Start(2)),
        602,
        0x02,
        1,
        4,
    ),
    (
        Change::Cell(TableId::TypeDef, 3, 4, Start(0)),
        602,
        0x02,
        3,
        4,
    ),
    (
        Change::Cell(TableId::TypeDef, 1, 5, Start(0)),
        602,
        0x02,
        1,
        5,
    ),
    (
        Change::Cell(TableId::TypeDef, 2, 5, Start(0)),
        602,
        0x02,
        2,
        5,
    ),
    (
        Change::Cell(TableId::MethodDef, 1, 5, Start(3)),
        602,
        0x06,
        1,
        5,
    ),
    (
        Change::Cell(TableId::MethodDef, 2, 5, Start(4)),
        602,
        0x06,
        3,
        5,
    ),
    (
        Change::Cell(TableId::EventMap, 1, 1, Start(2)),
        602,
        0x12,
        1,
        1,
    ),
    (Change::NoRows(TableId::PropertyMap), 603, 0x17, 1, 0),
    // Types in types.
    (
        Change::Cell(TableId::NestedClass, 1, 1, Row(TableId::TypeDef, 2)),
        604,
        0x29,
        1,
        1,
    ),
    (
        Change::Cell(TableId::NestedClass, 2, 1, Row(TableId::TypeDef, 3)),
        604,
        0x29,
        2,
        1,
    ),
    (
        Change::Cell(TableId::NestedClass, 3, 0, Row(TableId::TypeDef, 1)),
        604,
        0x29,
        3,
        1,
    ),
    // Signatures: of another kind than their column's, and with a type that has no row.
    (
        Change::Cell(TableId::Field, 1, 2, Sig(SigKind::MethodDef, b"\0\0\x01")),
        701,
        0x04,
        1,
        2,
    ),
    (
        Change::Cell(TableId::Field, 2, 2, Sig(SigKind::Field, b"\x06\x12\x11")),
        702,
        0x04,
        2,
        2,
    ),
    (
        Change::Cell(TableId::Field, 3, 2, Sig(SigKind::TypeSpec, b"\x12\x11")),
        701,
        0x04,
        3,
        2,
    ),
    (
        Change::Cell(
            TableId::MethodDef,
            2,
            4,
            Sig(SigKind::MemberRef, b"\x05\x01\x01\x41\x08"),
        ),
        701,
        0x06,
        2,
        4,
    ),
    (
        Change::Cell(
            TableId::StandAloneSig,
            1,
            0,
            Sig(SigKind::Property, b"\x28\0\x08"),
        ),
        701,
        0x11,
        1,
        0,
    ),
    (
        Change::Cell(TableId::TypeSpec, 2, 0, Sig(SigKind::TypeSpec, b"\x12\x02")),
        702,
        0x1B,
        2,
        0,
    ),
    (
        Change::Cell(
            TableId::MethodSpec,
            1,
            1,
            Sig(SigKind::Field, b"\x06\x12\x11"),
        ),
        701,
        0x2B,
        1,
        1,
    ),
    (
        Change::Cell(
            TableId::MethodSpec,
            3,
            1,
            Sig(SigKind::Instance, b"\x0A\x01\x11\x10"),
        ),
        702,
        0x2B,
        3,
        1,
    ),
];

/// What tables are refused with that have these changes. They have to be returned as they were.
pub fn refusal_with(alloc: Global, changes: &[Change]) -> Result<Option<Refusal>, Fail> {
    let twin = tables_with(alloc, changes)?;
    match refusal(tables_with(alloc, changes)?) {
        None => Ok(None),
        Some((refused, tables)) if tables == twin => Ok(Some(refused)),
        Some(_) => Err(Fail::from("refused tables are not returned as they were")),
    }
}

/// What the tables are refused with that break a rule.
fn refusal_of(broken: Broken) -> Option<Refusal> {
    let (_, code, table, row, column) = broken;
    Some(Refusal {
        code,
        table,
        row,
        column,
    })
}

#[test]
fn whole_tables_are_a_model(rt: HostRuntime) -> Result<(), Fail> {
    assert_eq!(rt; refusal_with(rt.alloc(), &[])?, None);
    assert_eq!(rt; LONG.len(), 255);
    Ok(())
}

#[test]
fn each_rule_is_reported(rt: HostRuntime) -> Result<(), Fail> {
    for broken in RULES {
        assert_eq!(rt; refusal_with(rt.alloc(), &[broken.0])?, refusal_of(broken));
    }
    Ok(())
}

#[test]
fn of_two_rules_the_first_is_reported(rt: HostRuntime) -> Result<(), Fail> {
    for (offset, first) in RULES.iter().enumerate() {
        for later in RULES.iter().skip(offset) {
            // In either order of making them.
            for changes in [[first.0, later.0], [later.0, first.0]] {
                assert_eq!(rt;
                    refusal_with(rt.alloc(), &changes)?,
                    refusal_of(*first),
                    "{later:?}"
                );
            }
        }
    }
    Ok(())
}

#[test]
fn of_many_rules_the_first_is_reported(rt: HostRuntime) -> Result<(), Fail> {
    for (offset, first) in RULES.iter().enumerate() {
        let mut changes = Vec::new(rt.alloc());
        for later in RULES.iter().skip(offset) {
            changes.push(later.0)?;
        }
        assert_eq!(rt;
            refusal_with(rt.alloc(), changes.as_slice())?,
            refusal_of(*first)
        );
    }
    Ok(())
}
