use crate::form::Form;
use opening::{CellRef, Fault, View, open_image, open_root};
use owned_model::{LoadError, Model, Tables, ToModel, load_image, load_root};
use sample_roots::fault_of;
use sample_tables::{copy_cell, model_of};
use schema::{ColumnKind, TableId, cell_count, column_of_cell, columns};
use signatures::decode;
use std::alloc::Global;
use std::test::Fail;
use tables::Cell;

/// The view of the bytes.
fn open(form: Form, bytes: &[u8]) -> Result<View<'_>, Fault> {
    match form {
        Form::Root => open_root(bytes),
        Form::Image => match open_image(bytes) {
            Ok((_, view)) => Ok(view),
            Err(fault) => Err(fault),
        },
    }
}

/// The model of the bytes.
fn load(alloc: Global, form: Form, bytes: &[u8]) -> Result<Model, LoadError> {
    match form {
        Form::Root => load_root(alloc, bytes),
        Form::Image => match load_image(alloc, bytes) {
            Ok((_, model)) => Ok(model),
            Err(error) => Err(error),
        },
    }
}

/// Whether a cell says what is shown in a column.
fn says(alloc: Global, owned: &Cell, shown: CellRef, kind: ColumnKind) -> Result<bool, Fail> {
    Ok(match (owned, shown, kind) {
        (Cell::Number(owned), CellRef::Number(shown), _) => *owned == shown,
        (Cell::Text(owned), CellRef::Text(shown), _) => owned.as_str() == shown,
        (Cell::Bytes(owned), CellRef::Bytes(shown), _) => owned.as_slice() == shown,
        (Cell::Guid(owned), CellRef::Guid(shown), _) => *owned == shown,
        (Cell::Ref(owned), CellRef::Ref(shown), _) => *owned == shown,
        (Cell::Start(owned), CellRef::Start(shown), _) => *owned == shown,
        (Cell::Sig(owned), CellRef::Sig(blob), ColumnKind::Signature(column)) => {
            *owned == decode(alloc, blob, column)?
        }
        _ => false,
    })
}

/// Whether the cells of a row say what a view shows of it.
fn row_says(
    alloc: Global,
    cells: &[Cell],
    view: &View,
    table: TableId,
    row: u32,
) -> Result<bool, Fail> {
    for column in 0..cell_count(table) {
        let kind = columns(table)[column_of_cell(table, column)].kind;
        let is_said = match cells.get(column) {
            Some(owned) => says(alloc, owned, view.cell(table, row, column), kind)?,
            None => false,
        };
        if !is_said {
            return Ok(false);
        }
    }
    Ok(cells.len() == cell_count(table))
}

/// Whether the rows of a table say what a view shows of them.
fn table_says(alloc: Global, model: &Model, view: &View, table: TableId) -> Result<bool, Fail> {
    for row in 1..model.count(table) + 1 {
        if !row_says(alloc, model.cells(table, row), view, table, row)? {
            return Ok(false);
        }
    }
    Ok(model.count(table) == view.count(table))
}

/// Whether the user bytes are those that a view shows, zero-padded to a multiple of four.
fn user_says(model: &Model, view: &View) -> bool {
    let user = model.user();
    let padding = user.iter().skip(view.user().len());
    user.get(..view.user().len()) == Some(view.user())
        && padding.copied().all(|byte| byte == 0)
        && user.len() % 4 == 0
        && user.len() < view.user().len().saturating_add(4)
}

/// Whether a model says what a view shows: version, user bytes and each cell.
fn model_says(alloc: Global, model: &Model, view: &View) -> Result<bool, Fail> {
    for table in TableId::all() {
        if !table_says(alloc, model, view, *table)? {
            return Ok(false);
        }
    }
    Ok(model.version() == view.version() && user_says(model, view))
}

/// Tables of copies of a model's cells.
fn copied_tables(alloc: Global, model: &Model) -> Result<Tables, Fail> {
    let mut tables = Tables::new(alloc, model.version())?;
    tables.set_user(model.user().to_vec(alloc)?);
    for table in TableId::all() {
        for row in 1..model.count(*table) + 1 {
            let mut cells = Vec::new(alloc);
            for cell in model.cells(*table, row) {
                cells.push(copy_cell(alloc, cell)?)?;
            }
            tables.push(*table, cells)?;
        }
    }
    Ok(tables)
}

/// A model that is what a view shows, is what the view makes, and is made again of copies of its cells.
fn seen(alloc: Global, model: Model, view: &View) -> Result<Model, Fail> {
    if !model_says(alloc, &model, view)? {
        return Err(Fail::from("a model that says what no view shows"));
    }
    if model != view.model(alloc)? {
        return Err(Fail::from("a view that makes another model"));
    }
    if model != model_of(copied_tables(alloc, &model)?)? {
        return Err(Fail::from("copies of cells that make another model"));
    }
    Ok(model)
}

/// The model of the bytes, or the fault that they are loaded and opened with.
#[derive(Debug, Drop)]
pub enum Answer {
    /// The model.
    Model(Model),
    /// The fault.
    Fault(Fault),
}

/// Loads bytes and opens them, which has to give the same result.
pub fn loaded(alloc: Global, form: Form, bytes: &[u8]) -> Result<Answer, Fail> {
    match (load(alloc, form, bytes), open(form, bytes)) {
        (Ok(model), Ok(view)) => Ok(Answer::Model(seen(alloc, model, &view)?)),
        (Err(LoadError::Fault(fault)), Err(opened)) if fault == opened => Ok(Answer::Fault(fault)),
        _ => Err(Fail::from("a load and opening give different results")),
    }
}

/// The model of the bytes.
pub fn model_in(alloc: Global, form: Form, bytes: &[u8]) -> Result<Model, Fail> {
    match loaded(alloc, form, bytes)? {
        Answer::Model(model) => Ok(model),
        Answer::Fault(fault) => Err(Fail::from(fault)),
    }
}

/// The fault of the bytes.
pub fn fault_in(alloc: Global, form: Form, bytes: &[u8]) -> Result<Option<Fault>, Fail> {
    match loaded(alloc, form, bytes)? {
        Answer::Model(_) => Ok(None),
        Answer::Fault(fault) => Ok(Some(fault)),
    }
}

/// The fault that opening alone reports.
pub fn refusal(form: Form, bytes: &[u8]) -> Option<Fault> {
    open(form, bytes).err()
}

/// The code and the offset of the fault of a root, which opening and loading report alike.
pub fn fault_of_root(alloc: Global, root: &[u8]) -> Result<Option<(u16, u64)>, Fail> {
    Ok(fault_of(fault_in(alloc, Form::Root, root)?))
}

/// The code and the offset of the fault of a file, which opening and loading report alike.
pub fn fault_of_image(alloc: Global, file: &[u8]) -> Result<Option<(u16, u64)>, Fail> {
    Ok(fault_of(fault_in(alloc, Form::Image, file)?))
}

/// A cell of a model, by its row from 1 and its index in the row from 0.
fn cell_in(model: &Model, table: TableId, row: u32, cell_index: usize) -> Option<&Cell> {
    if 1 <= row && row <= model.count(table) {
        model.cells(table, row).get(cell_index)
    } else {
        None
    }
}

/// Whether a model has this cell, by its row from 1 and its index in the row from 0.
pub fn has_cell(model: &Model, table: TableId, row: u32, cell_index: usize, cell: Cell) -> bool {
    match cell_in(model, table, row, cell_index) {
        Some(found) => *found == cell,
        None => false,
    }
}

/// The text of a cell of a model.
pub fn text_in(model: &Model, table: TableId, row: u32, cell_index: usize) -> Option<&str> {
    match cell_in(model, table, row, cell_index) {
        Some(Cell::Text(text)) => Some(text.as_str()),
        _ => None,
    }
}
