use crate::zero_padded::refusal;
use owned_model::{Refusal, TableId, Tables};
use std::mem;
use std::test::Fail;

/// How many rows are one too many for a table.
const TOO_MANY: usize = 0x100_0000;

#[test]
fn a_table_with_a_row_too_many_is_reported_before_its_cells(rt: HostRuntime) -> Result<(), Fail> {
    let mut tables = Tables::new(rt.alloc(), "")?;
    tables.reserve(TableId::File, TOO_MANY)?;
    for _ in 0..TOO_MANY {
        tables.push(TableId::File, Vec::new(rt.alloc()))?;
    }
    let reported = Refusal {
        code: 406,
        table: 0x26,
        row: 0,
        column: 0,
    };
    let (refused, tables) = refusal(tables).ok_or("a model")?;
    assert_eq!(rt; refused, reported);
    assert_eq!(rt; tables.count(TableId::File), TOO_MANY);
    // A drop goes over all rows, one by one where each step is checked.
    mem::forget(tables);
    Ok(())
}
