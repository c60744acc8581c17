use crate::model::both::Both;
use model::{TableId, Token, key};
use sample_roots::{
    ALL_SORTED, OF_ASSEMBLY, OF_MODULE, OTHERS_SORTED, RootBuilder, root_of_attributes, type_row,
};
use std::test::Fail;

#[test]
fn rows_in_order_are_found_by_halving(rt: HostRuntime) -> Result<(), Fail> {
    let alloc = rt.alloc();
    for sorted in [0, ALL_SORTED] {
        let rising = [OF_MODULE, OF_ASSEMBLY, OF_ASSEMBLY];
        let root = root_of_attributes(alloc, sorted, &rising)?;
        let both = Both::of(alloc, root.as_slice())?;
        assert!(rt; both.view.in_order(TableId::CustomAttribute));
        assert!(rt; both.model.in_order(TableId::CustomAttribute));
        for (table, row, rows) in [
            (TableId::Assembly, 1, [2, 3].as_slice()),
            (TableId::Module, 1, &[1]),
            (TableId::File, 1, &[]),
            (TableId::Module, 0, &[]),
            (TableId::Module, 2, &[]),
            (TableId::Constant, 1, &[]),
        ] {
            let token = Token { table, row };
            for (found, reads) in both.keyed(alloc, TableId::CustomAttribute, token)? {
                assert_eq!(rt; found.as_slice(), rows);
                assert!(rt; reads <= 6);
            }
        }
    }
    Ok(())
}

#[test]
fn rows_out_of_order_are_found_by_a_walk(rt: HostRuntime) -> Result<(), Fail> {
    let alloc = rt.alloc();
    let falling = [OF_ASSEMBLY, OF_ASSEMBLY, OF_MODULE];
    let root = root_of_attributes(alloc, OTHERS_SORTED, &falling)?;
    let both = Both::of(alloc, root.as_slice())?;
    assert!(rt; !both.view.in_order(TableId::CustomAttribute));
    assert!(rt; !both.model.in_order(TableId::CustomAttribute));
    for (table, rows) in [
        (TableId::Assembly, [1, 2].as_slice()),
        (TableId::Module, &[3]),
        (TableId::File, &[]),
    ] {
        let token = Token { table, row: 1 };
        for (found, reads) in both.keyed(alloc, TableId::CustomAttribute, token)? {
            assert_eq!(rt; found.as_slice(), rows);
            assert_eq!(rt; reads, 0);
        }
    }
    Ok(())
}

#[test]
fn rows_of_one_owner_are_all_found(rt: HostRuntime) -> Result<(), Fail> {
    let alloc = rt.alloc();
    let mut root = RootBuilder::new(alloc);
    root.row(0x02, &type_row(1, 1))?;
    root.row(0x02, &type_row(1, 1))?;
    for _ in 0..2048 {
        root.row(0x2A, b"\0\0\0\0\x02\0\0\0")?;
    }
    let root = root.finish()?;
    let both = Both::of(alloc, root.as_slice())?;
    for (row, count) in [(1, 2048), (2, 0)] {
        let token = Token {
            table: TableId::TypeDef,
            row,
        };
        for (found, reads) in both.keyed(alloc, TableId::GenericParam, token)? {
            assert_eq!(rt; found.len(), count);
            assert!(rt; 2 <= reads && reads <= 26);
        }
        for (found, reads) in both.keyed(alloc, TableId::InterfaceImpl, token)? {
            assert!(rt; found.is_empty());
            assert!(rt; reads <= 2);
        }
    }
    Ok(())
}

#[test]
fn tables_of_no_rows_are_in_order(rt: HostRuntime) -> Result<(), Fail> {
    let root = root_of_attributes(rt.alloc(), ALL_SORTED, &[])?;
    let both = Both::of(rt.alloc(), root.as_slice())?;
    for table in TableId::all() {
        if key(*table).is_some() {
            assert!(rt;
                both.view.in_order(*table) && both.model.in_order(*table),
                "{table:?}"
            );
        }
    }
    Ok(())
}
