use owned_model::{Cell, Model, Refusal, TableId, Tables};

/// What a model of tables is refused with, and the tables as they were; `None` where they are valid.
pub fn refusal(tables: Tables) -> Option<(Refusal, Tables)> {
    Model::from_tables(tables).err()
}

/// The cells of a row, counted from 1; `None` where the table has no such row.
pub fn row_cells(tables: &Tables, table: TableId, row: usize) -> Option<&[Cell]> {
    if 1 <= row && row <= tables.count(table) {
        Some(tables.cells(table, row))
    } else {
        None
    }
}
