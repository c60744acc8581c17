use crate::reports::fault_of_root;
use crate::shown::cell;
use opening::{CellRef, View, open_root};
use sample_roots::{
    ALL_SORTED, OF_ASSEMBLY, OF_MODULE, OTHERS_SORTED, RootBuilder, root_of_attributes,
};
use schema::{TableId, Token};
use std::test::Fail;

/// The parent of a custom attribute.
fn parent_of(view: &View, row: u32) -> Option<Token> {
    match cell(view, TableId::CustomAttribute, row, 0) {
        Some(CellRef::Ref(token)) => token,
        _ => None,
    }
}

#[test]
fn falling_keys_are_refused_where_the_bit_says_sorted(rt: HostRuntime) -> Result<(), Fail> {
    let alloc = rt.alloc();
    let falling = [OF_ASSEMBLY, OF_ASSEMBLY, OF_MODULE];
    let root = root_of_attributes(alloc, ALL_SORTED, &falling)?;
    assert_eq!(rt; fault_of_root(alloc, root.as_slice())?, Some((601, 138)));
    assert_eq!(rt; OTHERS_SORTED, 0x1600_3301_EA00);
    let root = root_of_attributes(alloc, OTHERS_SORTED, &falling)?;
    let view = open_root(root.as_slice())?;
    assert!(rt; !view.in_order(TableId::CustomAttribute));
    assert!(rt; view.in_order(TableId::NestedClass));
    // The bits of tables without a key, and of no table, are ignored.
    let root = root_of_attributes(alloc, !ALL_SORTED, &falling)?;
    assert_eq!(rt; fault_of_root(alloc, root.as_slice())?, None);
    Ok(())
}

#[test]
fn rising_keys_are_in_order_whatever_the_bit(rt: HostRuntime) -> Result<(), Fail> {
    for sorted in [0, OTHERS_SORTED, ALL_SORTED, u64::MAX] {
        let rising = [OF_MODULE, OF_ASSEMBLY, OF_ASSEMBLY];
        let root = root_of_attributes(rt.alloc(), sorted, &rising)?;
        assert_eq!(rt; fault_of_root(rt.alloc(), root.as_slice())?, None);
        let view = open_root(root.as_slice())?;
        assert!(rt; view.in_order(TableId::CustomAttribute));
        for (row, table) in [
            (1, TableId::Module),
            (2, TableId::Assembly),
            (3, TableId::Assembly),
        ] {
            assert_eq!(rt; parent_of(&view, row), Some(Token { table, row: 1 }));
        }
    }
    Ok(())
}

#[test]
fn rows_out_of_order_are_refused(rt: HostRuntime) -> Result<(), Fail> {
    // The rows of TypeDef are at 76, those of NestedClass at 118.
    for (nestings, code, offset, name) in [
        (
            [b"\x03\0\x01\0".as_slice(), b"\x02\0\x01\0"],
            601,
            122,
            "NotSorted",
        ),
        ([b"\x02\0\x01\0", b"\x03\0\x03\0"], 604, 124, "NestedOrder"),
        ([b"\x01\0\x02\0", b"\x02\0\x01\0"], 604, 120, "NestedOrder"),
    ] {
        let mut root = RootBuilder::new(rt.alloc());
        for _ in 0..3 {
            root.row(0x02, b"\0\0\0\0\0\0\0\0\0\0\x01\0\x01\0")?;
        }
        for nesting in nestings {
            root.row(0x29, nesting)?;
        }
        let root = root.finish()?;
        let fault = open_root(root.as_slice()).err().ok_or("no fault")?;
        assert_eq!(rt; (fault.layer, fault.code, fault.offset), (6, code, offset));
        assert_eq!(rt; fault.name(), name);
    }
    Ok(())
}
