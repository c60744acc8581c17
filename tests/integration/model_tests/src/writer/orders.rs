use crate::writer::loaded::rewritten;
use owned_model::{TableId, load_root};
use sample_roots::{
    ALL_SORTED, OF_ASSEMBLY, OF_MODULE, OTHERS_SORTED, change, root_of_attributes, write_at,
};
use sample_tables::Written::Row;
use sample_tables::{Change, model_of, root_of_whole_tables, tables_with};
use std::test::Fail;
use writer::write_root;

#[test]
fn a_table_has_its_sorted_bit_where_it_is_in_order(rt: HostRuntime) -> Result<(), Fail> {
    let alloc = rt.alloc();
    let falling = [OF_ASSEMBLY, OF_ASSEMBLY, OF_MODULE];
    let rising = [OF_MODULE, OF_ASSEMBLY, OF_ASSEMBLY];
    let refused = root_of_attributes(alloc, ALL_SORTED, &falling)?;
    assert!(rt; load_root(alloc, refused.as_slice()).is_err());
    for (sorted, parents, written_sorted) in [
        (OTHERS_SORTED, falling, OTHERS_SORTED),
        (0, falling, OTHERS_SORTED),
        (OTHERS_SORTED, rising, ALL_SORTED),
        (0, rising, ALL_SORTED),
        (u64::MAX, rising, ALL_SORTED),
    ] {
        let root = root_of_attributes(alloc, sorted, &parents)?;
        let expected = root_of_attributes(alloc, written_sorted, &parents)?;
        let written = rewritten(alloc, root.as_slice())?;
        assert_eq!(rt; written.as_slice(), expected.as_slice());
    }
    Ok(())
}

#[test]
fn made_tables_have_the_bits_of_those_in_order(rt: HostRuntime) -> Result<(), Fail> {
    let alloc = rt.alloc();
    // The classes of the first and the last interface are swapped: 1, 2, 3 are 3, 2, 1.
    let model = model_of(tables_with(
        alloc,
        &[
            Change::Cell(TableId::InterfaceImpl, 1, 0, Row(TableId::TypeDef, 3)),
            Change::Cell(TableId::InterfaceImpl, 3, 0, Row(TableId::TypeDef, 1)),
        ],
    )?)?;
    let mut expected = root_of_whole_tables(alloc)?;
    // The table stream begins at 108: Sorted is there at 16, and the rows from 96 on, of which
    // the interfaces follow 168 bytes of others.
    let sorted = ALL_SORTED - (1 << 0x09);
    write_at(
        expected.as_mut_slice(),
        108 + 16,
        sorted.to_le_bytes().as_slice(),
    );
    let first = 108 + 96 + 168;
    change(expected.as_mut_slice(), &[(first, 3), (first + 8, 1)]);
    assert_eq!(rt; write_root(alloc, &model)?.as_slice(), expected.as_slice());
    Ok(())
}
