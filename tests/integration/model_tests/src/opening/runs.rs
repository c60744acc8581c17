use crate::reports::fault_of_root;
use crate::opening::built_roots::{changed, two_types};
use crate::shown::{Members, are_same, cell, run_of};
use opening::{CellCursor, CellRef, MemberList, open_root};
use sample_roots::{FIELD, RootBuilder, root_of_params, root_of_starts, type_row};
use schema::TableId;
use std::test::Fail;

#[test]
fn a_null_start_is_shown_as_that_of_the_next_owner(rt: HostRuntime) -> Result<(), Fail> {
    let root = root_of_starts(rt.alloc(), [1, 0, 3])?;
    let view = open_root(root.as_slice())?;
    for (row, start) in [(1, 1), (2, 3), (3, 3)] {
        assert_eq!(rt;
            cell(&view, TableId::TypeDef, row, 4),
            Some(CellRef::Start(start))
        );
        assert_eq!(rt;
            cell(&view, TableId::TypeDef, row, 5),
            Some(CellRef::Start(1))
        );
    }
    Ok(())
}

#[test]
fn all_starts_are_given_from_the_last_to_the_first(rt: HostRuntime) -> Result<(), Fail> {
    let root = root_of_starts(rt.alloc(), [1, 0, 3])?;
    let view = open_root(root.as_slice())?;
    let mut starts = view.starts(TableId::TypeDef, 4, TableId::Field);
    for start in [Some(3), Some(3), Some(1), None] {
        assert_eq!(rt; starts.next(), start);
    }
    Ok(())
}

#[test]
fn null_starts_of_many_owners_are_found(rt: HostRuntime) -> Result<(), Fail> {
    let mut root = RootBuilder::new(rt.alloc());
    root.row(0x02, &type_row(1, 1))?;
    for _ in 0..1000 {
        root.row(0x02, &type_row(0, 1))?;
    }
    root.row(0x04, FIELD)?;
    root.heap("#Blob", b"\0\x02\x06\x08")?;
    let root = root.finish()?;
    let view = open_root(root.as_slice())?;
    for (row, fields) in [
        (1, 1..2),
        (2, 2..2),
        (500, 2..2),
        (1000, 2..2),
        (1001, 2..2),
    ] {
        assert_eq!(rt; run_of(&view, Members::Fields, row), Some(fields));
    }
    Ok(())
}

/// The start of the fields of a type, if those of types 1, 300 and 700 start with fields 1 to 3, and others are null.
fn start_of(row: u32) -> u32 {
    if row == 1 {
        1
    } else if row <= 300 {
        2
    } else if row <= 700 {
        3
    } else {
        4
    }
}

/// Whether a pass shows the start and the run of a type's fields.
fn shows_fields(cells: &mut CellCursor<'_, '_>, row: u32) -> bool {
    cells.cell(TableId::TypeDef, row, 4) == CellRef::Start(start_of(row))
        && cells.cell(TableId::TypeDef, row, 5) == CellRef::Start(1)
        && cells.run(MemberList::Fields, row) == (start_of(row)..start_of(row + 1))
}

#[test]
fn a_pass_shows_null_starts_in_any_order(rt: HostRuntime) -> Result<(), Fail> {
    let mut root = RootBuilder::new(rt.alloc());
    for row in 1..1001u32 {
        let fields = match row {
            1 => 1,
            300 => 2,
            700 => 3,
            _ => 0,
        };
        root.row(0x02, &type_row(fields, 1))?;
    }
    for _ in 0..3 {
        root.row(0x04, FIELD)?;
    }
    root.heap("#Blob", b"\0\x02\x06\x08")?;
    let root = root.finish()?;
    let view = open_root(root.as_slice())?;
    let mut cells = CellCursor::new(&view);
    for row in 1..1001 {
        assert!(rt; shows_fields(&mut cells, row), "of {row}");
    }
    for row in [1, 1000, 999, 300, 301, 299, 700, 2, 701] {
        assert!(rt; shows_fields(&mut cells, row), "of {row}");
    }
    for earlier in 0..1000 {
        let row = 1000 - earlier;
        assert!(rt; shows_fields(&mut cells, row), "of {row}");
    }
    Ok(())
}

#[test]
fn runs_start_at_1_and_never_fall(rt: HostRuntime) -> Result<(), Fail> {
    // The rows of TypeDef are at 92, 106 and 120, FieldList ten bytes further.
    for (starts, fault) in [
        ([1, 1, 1], None),
        ([1, 2, 3], None),
        ([1, 0, 3], None),
        ([0, 1, 3], None),
        ([1, 3, 0], None),
        ([2, 3, 3], Some((602, 102))),
        ([0, 2, 3], Some((602, 102))),
        ([0, 0, 0], Some((602, 102))),
        ([1, 3, 2], Some((602, 130))),
        ([1, 4, 3], Some((507, 116))),
        ([2, 3, 4], Some((507, 130))),
    ] {
        let root = root_of_starts(rt.alloc(), starts)?;
        let [first, second, third] = starts;
        assert_eq!(rt;
            fault_of_root(rt.alloc(), root.as_slice())?,
            fault,
            "from {first}, {second}, {third}"
        );
    }
    Ok(())
}

#[test]
fn a_null_start_shows_the_same(rt: HostRuntime) -> Result<(), Fail> {
    let alloc = rt.alloc();
    // The starts of the fields of the first type, and of the second.
    let types = two_types(alloc)?;
    let null = changed(two_types(alloc)?, 126, 0);
    assert!(rt; are_same(&open_root(null.as_slice())?, &open_root(types.as_slice())?));
    let first = changed(two_types(alloc)?, 140, 0);
    let view = open_root(first.as_slice())?;
    assert_eq!(rt; run_of(&view, Members::Fields, 1), Some(1..3));
    assert_eq!(rt; run_of(&view, Members::Fields, 2), Some(3..3));
    Ok(())
}

#[test]
fn a_start_after_65535_members_is_shown(rt: HostRuntime) -> Result<(), Fail> {
    let root = root_of_params(rt.alloc())?;
    let view = open_root(root.as_slice())?;
    assert_eq!(rt;
        cell(&view, TableId::MethodDef, 1, 5),
        Some(CellRef::Start(1))
    );
    assert_eq!(rt;
        cell(&view, TableId::MethodDef, 2, 5),
        Some(CellRef::Start(65536))
    );
    Ok(())
}

#[test]
fn members_have_owners(rt: HostRuntime) -> Result<(), Fail> {
    let method = b"\0\0\0\0\0\0\0\0\0\0\x04\0\x01\0".as_slice();
    let event = b"\0\0\0\0\0\0".as_slice();
    let property = b"\0\0\0\0\x08\0".as_slice();
    let param = b"\0\0\0\0\0\0".as_slice();
    for (number, member) in [
        (0x04, FIELD),
        (0x06, method),
        (0x08, param),
        (0x14, event),
        (0x17, property),
    ] {
        let mut root = RootBuilder::new(rt.alloc());
        root.row(number, member)?;
        root.heap("#Blob", b"\0\x02\x06\x08\x03\0\0\x01\x03\x08\0\x08")?;
        let root = root.finish()?;
        let fault = fault_of_root(rt.alloc(), root.as_slice())?;
        assert_eq!(rt; fault, Some((603, 88)), "of {number}");
    }
    Ok(())
}
