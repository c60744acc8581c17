use opening::{CellRef, View};
use schema::{TableId, cell_count};
use std::ops::Range;

/// A cell that a view shows, by its row from 1 and its index in the row from 0; `None` if the table
/// has no such row, or the row no such cell.
pub fn cell<'a>(view: &View<'a>, table: TableId, row: u32, column: usize) -> Option<CellRef<'a>> {
    if 1 <= row && row <= view.count(table) && column < cell_count(table) {
        Some(view.cell(table, row, column))
    } else {
        None
    }
}

/// Whether two rows have the same cells.
fn are_same_rows(one: &View, other: &View, table: TableId, row: u32) -> bool {
    (0..cell_count(table)).all(|column| cell(one, table, row, column)
        == cell(other, table, row, column))
}

/// Whether two tables have the same rows.
fn are_same_tables(one: &View, other: &View, table: TableId) -> bool {
    let count = one.count(table);
    count == other.count(table) && (1..=count).all(|row| are_same_rows(one, other, table, row))
}

/// Whether two views show the same: the version, the user bytes and each cell.
pub fn are_same(one: &View, other: &View) -> bool {
    one.version() == other.version()
        && one.user() == other.user()
        && TableId::all()
            .iter()
            .all(|table| are_same_tables(one, other, *table))
}

/// The lists of members.
#[derive(Clone, Copy, Debug, PartialEq)]
pub enum Members {
    /// The fields of a type.
    Fields,
    /// The methods of a type.
    Methods,
    /// The parameters of a method.
    Params,
    /// The events of a row of EventMap.
    Events,
    /// The properties of a row of PropertyMap.
    Properties,
}

/// The run of members of an owner, where its table has the row.
pub fn run_of(view: &View, members: Members, row: u32) -> Option<Range<u32>> {
    if row == 0 {
        return None;
    }
    match members {
        Members::Fields if row <= view.count(TableId::TypeDef) => Some(view.fields_of(row)),
        Members::Methods if row <= view.count(TableId::TypeDef) => Some(view.methods_of(row)),
        Members::Params if row <= view.count(TableId::MethodDef) => Some(view.params_of(row)),
        Members::Events if row <= view.count(TableId::EventMap) => Some(view.events_of(row)),
        Members::Properties if row <= view.count(TableId::PropertyMap) => Some(view.properties_of(
            row,
        )),
        _ => None,
    }
}

/// Rows that have a key, and how many keys were read to find them.
pub type Keyed = (Vec<u32>, u64);
