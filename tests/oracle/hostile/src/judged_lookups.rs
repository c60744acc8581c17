use crate::judged::{Stop, broken};
use crate::judged_cells::table_id;
use crate::numbers::{number_at, packed_at};
use crate::plain_model::{PlainCell, PlainModel};
use crate::plain_writer::{is_in_order, key_row};
use crate::random::Random;
use crate::standard::{
    EVENT_MAP, METHOD_DEF, PROPERTY_MAP, RUNS, TABLES, TYPE_DEF, Table, key_column,
};
use model::{HeapFault, KeyNumbers, KeyRows, Model, Token, View, user_string};
use std::alloc::Global;
use std::ops::Range;
use std::str;

/// How many rows are sampled of each look-up.
const SAMPLES: u32 = 4;

/// Looks up rows of a view and of a model, and holds what is found against the cells.
pub fn judge_lookups(
    alloc: Global,
    random: &mut Random,
    plain: &PlainModel,
    view: &View,
    model: &Model,
) -> Result<(), Stop> {
    judge_runs(alloc, random, plain, view, model)?;
    judge_types(alloc, random, plain, view, model)?;
    judge_user_strings(alloc, random, view.user())?;
    for table in TABLES {
        if key_column(table).is_some() {
            judge_keys(alloc, random, plain, view, model, table)?;
        }
    }
    Ok(())
}

/// User strings at any offsets (II.24.2.4).
fn judge_user_strings(alloc: Global, random: &mut Random, heap: &[u8]) -> Result<(), Stop> {
    for _sample in 0..SAMPLES {
        let index = random.below(heap.len() as u32 + 2);
        if !is_user_string(heap, index) {
            return Err(broken(alloc, "a user string is read otherwise"));
        }
    }
    Ok(())
}

/// Whether the user string of an index is read as it stands.
fn is_user_string(heap: &[u8], index: u32) -> bool {
    let mut blob = Some(heap.get(..0).unwrap_or(heap));
    if index > 0 {
        blob = match packed_at(heap, index as usize) {
            Some((len, width)) => {
                let start = index as usize + width;
                heap.get(start..start + len as usize)
            }
            None => None,
        };
    }
    match (user_string(heap, index), blob) {
        (Err(HeapFault::BadBlob), None) => true,
        (Err(HeapFault::BadUserString), Some(blob)) => !blob.is_empty() && blob.len() % 2 == 0,
        (Ok(string), Some(blob)) => {
            let units = string.units().zip(blob.chunks(2));
            let has_units = units
                .map(|(unit, pair)| number_at(pair, 0, 2) == Some(u32::from(unit)))
                .all(|is_same| is_same);
            let is_whole = blob.is_empty() || blob.len() % 2 == 1;
            let count = string.units().count();
            is_whole
                && has_units
                && count == blob.len() / 2
                && string.flag() == blob.last().copied()
        }
        _ => false,
    }
}

/// The runs of members, of the first rows, the last and any.
fn judge_runs(
    alloc: Global,
    random: &mut Random,
    plain: &PlainModel,
    view: &View,
    model: &Model,
) -> Result<(), Stop> {
    for (owner, column, member) in RUNS {
        let count = plain.count(owner);
        for _sample in 0..SAMPLES.min(count) {
            let any = random.between(1, count);
            let row = random.pick(&[any, any, 1, count]);
            let expected = run_of(plain, owner, row, column, member);
            if run_in_model(model, owner, column, row) != expected {
                return Err(broken(alloc, "a model has another run"));
            }
            if run_in_view(view, owner, column, row) != expected {
                return Err(broken(alloc, "a view has another run"));
            }
        }
    }
    Ok(())
}

fn run_of(plain: &PlainModel, owner: Table, row: u32, column: usize, member: Table) -> Range<u32> {
    let past = plain.count(member) + 1;
    let mut ends = [past; 2];
    for (step, end) in ends.iter_mut().enumerate() {
        let cells = plain.rows(owner).get(row as usize - 1 + step);
        if let Some(PlainCell::Start(start)) = cells.map(|cells| &cells[column]) {
            *end = *start;
        }
    }
    ends[0]..ends[1]
}

fn run_in_model(model: &Model, owner: Table, column: usize, row: u32) -> Range<u32> {
    match (owner, column) {
        (TYPE_DEF, 4) => model.fields_of(row),
        (TYPE_DEF, _) => model.methods_of(row),
        (METHOD_DEF, _) => model.params_of(row),
        (EVENT_MAP, _) => model.events_of(row),
        (PROPERTY_MAP, _) => model.properties_of(row),
        _ => 0..0,
    }
}

fn run_in_view(view: &View, owner: Table, column: usize, row: u32) -> Range<u32> {
    match (owner, column) {
        (TYPE_DEF, 4) => view.fields_of(row),
        (TYPE_DEF, _) => view.methods_of(row),
        (METHOD_DEF, _) => view.params_of(row),
        (EVENT_MAP, _) => view.events_of(row),
        (PROPERTY_MAP, _) => view.properties_of(row),
        _ => 0..0,
    }
}

/// Types by the names of some types, also of two that differ.
fn judge_types(
    alloc: Global,
    random: &mut Random,
    plain: &PlainModel,
    view: &View,
    model: &Model,
) -> Result<(), Stop> {
    let count = plain.count(TYPE_DEF);
    for _sample in 0..SAMPLES.min(count) {
        let row = random.between(1, count);
        let any = random.between(1, count);
        let other = random.pick(&[row, row, any]);
        let (PlainCell::Text(name), PlainCell::Text(namespace)) = (
            plain.cell(TYPE_DEF, row, 1),
            plain.cell(TYPE_DEF, other, 2),
        ) else {
            continue;
        };
        let mut expected = None;
        for row in (1..count + 1).rev() {
            if text_is(plain, row, 1, name.as_slice())
                && text_is(plain, row, 2, namespace.as_slice())
            {
                expected = Some(row);
            }
        }
        let name = str::from_utf8(name.as_slice()).unwrap_or("");
        let namespace = str::from_utf8(namespace.as_slice()).unwrap_or("");
        if model.find_type(namespace, name) != expected
            || view.find_type(namespace, name) != expected
        {
            return Err(broken(alloc, "another type is found by name"));
        }
    }
    Ok(())
}

fn text_is(plain: &PlainModel, row: u32, column: usize, sought: &[u8]) -> bool {
    match plain.cell(TYPE_DEF, row, column) {
        PlainCell::Text(text) => text.as_slice() == sought,
        _ => false,
    }
}

/// Rows of a table by its key, and whether it is in order.
fn judge_keys(
    alloc: Global,
    random: &mut Random,
    plain: &PlainModel,
    view: &View,
    model: &Model,
    table: Table,
) -> Result<(), Stop> {
    let id = table_id(alloc, table)?;
    let is_ordered = is_in_order(plain, table);
    if model.in_order(id) != is_ordered || view.in_order(id) != is_ordered {
        return Err(broken(
            alloc,
            "a table is in order, and reported not to be, or the other way round",
        ));
    }
    let count = plain.count(table);
    for _sample in 0..SAMPLES {
        let token = sought(alloc, random, plain, table)?;
        let mut expected = Vec::new(alloc);
        for (offset, cells) in plain.rows(table).iter().enumerate() {
            let key = key_row(cells.as_slice(), table);
            if token.row > 0 && key == Some((token.table.number(), token.row)) {
                expected.push(offset as u32 + 1)?;
            }
        }
        let of_model = model.by_key(id, token);
        let of_view = view.by_key(id, token);
        for reads in [of_model.reads(), of_view.reads()] {
            let limit = if is_ordered { 2 * digits(count) + 2 } else { 0 };
            if reads > limit {
                return Err(broken(alloc, "more keys are read than promised"));
            }
        }
        if rows_in(alloc, of_model)? != expected || rows_in(alloc, of_view)? != expected {
            return Err(broken(alloc, "other rows are found by key"));
        }
    }
    Ok(())
}

/// How many binary digits a number has.
fn digits(number: u32) -> u64 {
    u64::from(32 - number.leading_zeros())
}

/// A token to look for: mostly the key of some row, and else any row of any table, or none.
fn sought(
    alloc: Global,
    random: &mut Random,
    plain: &PlainModel,
    table: Table,
) -> Result<Token, Stop> {
    let rows = plain.rows(table);
    if !rows.is_empty() && !random.is_one_in(4) {
        let cells = &rows[random.offset(rows.len())];
        if let Some((table, row)) = key_row(cells.as_slice(), table) {
            return Ok(Token {
                table: table_id(alloc, table)?,
                row,
            });
        }
    }
    let any = random.number() & 0xFF_FFFF;
    Ok(Token {
        table: table_id(alloc, random.pick(&TABLES))?,
        row: random.pick(&[0, 1, 2, 3, any]),
    })
}

fn rows_in<K: KeyNumbers>(alloc: Global, found: KeyRows<K>) -> Result<Vec<u32>, Stop> {
    let mut rows = Vec::new(alloc);
    for row in found {
        rows.push(row)?;
    }
    Ok(rows)
}
