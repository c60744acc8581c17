//! The links between the rows of a model, plainly, for a root and for tables. It shares no code with the library.

use crate::plain_model::{PlainCell, PlainModel};
use crate::standard::{NESTED_CLASS, RUNS, Table};

/// A code, a table, a row and a column.
pub type At = (u16, Table, u32, usize);

/// The first link that breaks a rule, if any.
pub fn bad_link(model: &PlainModel) -> Option<At> {
    bad_run(model).or_else(|| bad_nesting(model))
}

/// The first run that does not begin where it may, or the first members without owners.
fn bad_run(model: &PlainModel) -> Option<At> {
    for (owner, column, member) in RUNS {
        if model.count(owner) == 0 && model.count(member) > 0 {
            return Some((603, member, 1, 0));
        }
        let mut before = 1;
        for row in 1..model.count(owner) + 1 {
            let PlainCell::Start(start) = model.cell(owner, row, column) else {
                continue;
            };
            if *start < before || row == 1 && *start != 1 {
                return Some((602, owner, row, column));
            }
            before = *start;
        }
    }
    None
}

/// The first type that does not follow the type around it.
fn bad_nesting(model: &PlainModel) -> Option<At> {
    for row in 1..model.count(NESTED_CLASS) + 1 {
        let nested = model.cell(NESTED_CLASS, row, 0);
        let around = model.cell(NESTED_CLASS, row, 1);
        if let (PlainCell::Row(Some((_, nested))), PlainCell::Row(Some((_, around)))) = (
            nested, around,
        ) {
            if around >= nested {
                return Some((604, NESTED_CLASS, row, 1));
            }
        }
    }
    None
}
