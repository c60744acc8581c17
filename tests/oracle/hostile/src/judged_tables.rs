use crate::judged::{Stop, Tally, broken, judge_made};
use crate::judged_cells::tables_of;
use crate::judged_signatures::KINDS;
use crate::made_signatures::made_signature;
use crate::plain_model::{PlainCell, PlainModel};
use crate::plain_refusal::{PlainRefusal, refusal_of};
use crate::random::Random;
use crate::encoded_root::encoded_root;
use crate::standard::{Kind, NESTED_CLASS, RUNS, TABLES, Table, columns};
use model::Model;
use std::alloc::{AllocError, Global};

/// Makes a model of tables of which something may be wrong, and compares the result with the rules.
pub fn judge_tables(
    alloc: Global,
    random: &mut Random,
    plain: &PlainModel,
    tally: &mut Tally,
) -> Result<(), Stop> {
    let mut plain = plain.copied(alloc)?;
    for _change in 0..random.pick(&[1, 1, 1, 2]) {
        change_tables(alloc, random, &mut plain)?;
    }
    let expected = refusal_of(alloc, &plain);
    match Model::from_tables(tables_of(alloc, &plain)?) {
        Ok(model) if expected.is_none() => {
            tally.made = tally.made.saturating_add(1);
            judge_made(alloc, random, &plain, &model)
        }
        Err((refusal, tables)) => {
            let found = PlainRefusal {
                code: refusal.code,
                table: refusal.table,
                row: refusal.row,
                column: refusal.column,
            };
            tally.unmade = tally.unmade.saturating_add(1);
            if expected != Some(found) {
                let said = format!(in alloc; "tables: expected {expected:?}, found {found:?}")?;
                return Err(Stop::Broken(said));
            }
            if tables != tables_of(alloc, &plain)? {
                return Err(broken(alloc, "refused tables come back changed"));
            }
            Ok(())
        }
        Ok(_) => {
            let said = format!(in alloc; "tables: expected {expected:?}, found a model")?;
            Err(Stop::Broken(said))
        }
    }
}

/// Changes something of tables.
fn change_tables(
    alloc: Global,
    random: &mut Random,
    plain: &mut PlainModel,
) -> Result<(), AllocError> {
    match random.below(20) {
        0 => plain.version.push(random.pick(&[0, b'v']))?,
        1 => plain.user.push(random.byte())?,
        2..=4 => {
            let table = any_table(random, plain);
            plain.tables[table as usize].pop();
        }
        5..=6 => {
            let (owner, column, _) = random.pick(&RUNS);
            change_start(random, plain, owner, column);
        }
        _ => {
            let table = any_table(random, plain);
            let count = plain.rows(table).len();
            if count > 0 {
                let row = random.offset(count);
                change_row(alloc, random, plain, table, row)?;
            }
        }
    }
    Ok(())
}

/// A root of tables that break the rules over rows, and no others: rows are missing, and starts and references are
/// others.
pub fn broken_root(
    alloc: Global,
    random: &mut Random,
    plain: &PlainModel,
) -> Result<Vec<u8>, AllocError> {
    let mut plain = plain.copied(alloc)?;
    for _change in 0..random.pick(&[1, 1, 2]) {
        let table = any_table(random, &plain);
        let (owner, column, _) = random.pick(&RUNS);
        match random.below(6) {
            0 => {
                plain.tables[table as usize].pop();
            }
            1 => plain.tables[owner as usize].clear(),
            2 => change_start(random, &mut plain, owner, column),
            3 => {
                // An enclosing type follows the type in it.
                for cells in plain.tables[NESTED_CLASS as usize].iter_mut() {
                    cells.swap(0, 1);
                }
            }
            _ => change_reference(random, &mut plain, table),
        }
    }
    Ok(encoded_root(alloc, random, &plain)?.bytes)
}

/// Changes the row that a cell of a table names.
fn change_reference(random: &mut Random, plain: &mut PlainModel, table: Table) {
    let rows = &mut plain.tables[table as usize];
    if rows.is_empty() {
        return;
    }
    let offset = random.offset(rows.len());
    let near = random.below(6);
    for cell in rows[offset].iter_mut() {
        if let PlainCell::Row(Some((_, row))) = cell {
            if random.is_one_in(2) {
                *row = random.pick(&[near, row.saturating_add(1), row.saturating_sub(1)]);
            }
        }
    }
}

/// A table, with rows if a few tries find one.
fn any_table(random: &mut Random, plain: &PlainModel) -> Table {
    let mut table = random.pick(&TABLES);
    for _try in 0..8 {
        if plain.count(table) > 0 {
            break;
        }
        table = random.pick(&TABLES);
    }
    table
}

fn change_start(random: &mut Random, plain: &mut PlainModel, owner: Table, column: usize) {
    let rows = &mut plain.tables[owner as usize];
    if rows.is_empty() {
        return;
    }
    let row = random.offset(rows.len());
    if let Some(PlainCell::Start(start)) = rows[row].get_mut(column) {
        let any = random.below(8);
        *start = random.pick(&[0, any, start.saturating_add(1), start.saturating_sub(1)]);
    }
}

/// Changes a cell of a row, or how many it has.
fn change_row(
    alloc: Global,
    random: &mut Random,
    plain: &mut PlainModel,
    table: Table,
    row: usize,
) -> Result<(), AllocError> {
    let kinds = columns(table);
    let cells = &mut plain.tables[table as usize][row];
    match random.below(24) {
        0 => {
            cells.pop();
            return Ok(());
        }
        1 => {
            cells.push(PlainCell::Number(0))?;
            return Ok(());
        }
        _ => {}
    }
    if cells.is_empty() {
        return Ok(());
    }
    let offset = random.offset(cells.len());
    let kind = random.pick(kinds);
    let made = other_cell(alloc, random, &cells[offset], kind)?;
    cells[offset] = made;
    Ok(())
}

/// A cell in place of another: near it, or of any kind.
fn other_cell(
    alloc: Global,
    random: &mut Random,
    cell: &PlainCell,
    kind: Kind,
) -> Result<PlainCell, AllocError> {
    let other = random.pick(&TABLES);
    let any = random.below(6);
    let far = random.number();
    match cell {
        _ if random.is_one_in(8) => any_cell(alloc, random, kind),
        PlainCell::Number(_) => Ok(PlainCell::Number(random.pick(&[
            0xFF, 0x100, 0xFFFF, 0x1_0000, far,
        ]))),
        PlainCell::Text(text) => {
            let mut longer = text.as_slice().to_vec(alloc)?;
            longer.push(random.pick(&[0, b'x']))?;
            Ok(PlainCell::Text(longer))
        }
        PlainCell::Row(Some((table, row))) => {
            let near = random.pick(&[row.saturating_add(1), row.saturating_sub(1), any, far]);
            let table = random.pick(&[*table, *table, *table, other]);
            Ok(PlainCell::Row(Some((table, near))))
        }
        PlainCell::Row(None) => Ok(PlainCell::Row(Some((other, any)))),
        PlainCell::Signature(_, _) => {
            let counts = [random.pick(&[1, 7, 0x1FF_FFFF]); 45];
            let kind = random.pick(&KINDS);
            let bytes = made_signature(alloc, random, &counts, kind)?;
            Ok(PlainCell::Signature(kind, bytes))
        }
        _ => any_cell(alloc, random, kind),
    }
}

/// A cell of any kind.
fn any_cell(alloc: Global, random: &mut Random, kind: Kind) -> Result<PlainCell, AllocError> {
    Ok(match random.below(6) {
        0 => PlainCell::Number(random.below(3)),
        1 => PlainCell::Text(Vec::new(alloc)),
        2 => PlainCell::Bytes(Vec::new(alloc)),
        3 => PlainCell::Guid(None),
        4 => PlainCell::Start(random.below(4)),
        _ => match kind {
            Kind::Row(table) | Kind::List(table) => PlainCell::Row(Some((table, 1))),
            _ => PlainCell::Row(None),
        },
    })
}
