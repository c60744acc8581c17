use crate::errors::not_loaded;
use one_refusal::{Run, Stop, kept};
use opening::{View, open_image, open_root};
use owned_model::{Cell, LoadError, Model, TableId, Tables, ToModel, load_image, load_root};
use sample_roots::{ONE_MODULE, image};
use sample_tables::copy_cell;

/// The model of a root, loaded again where memory was refused.
fn of_root(run: &Run, root: &[u8]) -> Result<Model, Stop> {
    match load_root(run.alloc, root) {
        Err(LoadError::Memory) => run.again(load_root(run.alloc, root)),
        answer => answer.map_err(not_loaded),
    }
}

/// The model of a file, loaded again where memory was refused.
fn of_file(run: &Run, file: &[u8]) -> Result<Model, Stop> {
    let (_, model) = match load_image(run.alloc, file) {
        Err(LoadError::Memory) => run.again(load_image(run.alloc, file))?,
        answer => answer.map_err(not_loaded)?,
    };
    Ok(model)
}

/// The model of a view, made again where memory was refused.
fn of_view(run: &Run, view: &View) -> Result<Model, Stop> {
    match view.model(run.alloc) {
        Ok(model) => Ok(model),
        Err(_) => run.again(view.model(run.alloc)),
    }
}

/// The model of an opened root.
fn of_opened_root(run: &Run, root: &[u8]) -> Result<Model, Stop> {
    let Ok(view) = open_root(root) else {
        return Err(Stop::Broken("a root that has a model is opened"));
    };
    of_view(run, &view)
}

/// The model of an opened file.
fn of_opened_file(run: &Run, file: &[u8]) -> Result<Model, Stop> {
    let Ok((_, view)) = open_image(file) else {
        return Err(Stop::Broken("a file that has a model is opened"));
    };
    of_view(run, &view)
}

/// Copies of cells.
fn copied(run: &Run, cells: &[Cell]) -> Result<Vec<Cell>, Stop> {
    let mut copies = Vec::with_capacity(run.alloc, cells.len())?;
    for cell in cells {
        copies.push(copy_cell(run.alloc, cell)?)?;
    }
    Ok(copies)
}

/// Tables without rows that are as those of a model else, made again where memory was refused.
fn without_rows(run: &Run, model: &Model) -> Result<Tables, Stop> {
    let mut tables = match Tables::new(run.alloc, model.version()) {
        Ok(tables) => tables,
        Err(_) => run.again(Tables::new(run.alloc, model.version()))?,
    };
    tables.set_user(model.user().to_vec(run.alloc)?);
    Ok(tables)
}

/// Takes memory for some rows of tables that are equal to their twin, again where it was refused.
fn reserve(run: &Run, tables: &mut Tables, twin: &Tables) -> Result<(), Stop> {
    if tables.reserve(TableId::TypeDef, 3).is_err() {
        kept(*tables == *twin, "refused room leaves the tables")?;
        run.again(tables.reserve(TableId::TypeDef, 3))?;
    }
    kept(*tables == *twin, "room leaves the tables")
}

/// Adds a row to tables that are equal to their twin, again where memory was refused.
fn push(
    run: &Run,
    tables: &mut Tables,
    twin: &Tables,
    table: TableId,
    cells: &[Cell],
) -> Result<(), Stop> {
    match tables.push(table, copied(run, cells)?) {
        Ok(()) => Ok(()),
        Err(row) => {
            kept(row.as_slice() == cells, "a refused row is returned")?;
            kept(*tables == *twin, "a refused row leaves the tables")?;
            run.again(tables.push(table, row))
        }
    }
}

/// That tables of copies of a model's cells make an equal model.
fn is_made_again(run: &Run, model: &Model) -> Result<(), Stop> {
    let mut tables = without_rows(run, model)?;
    let mut twin = without_rows(run, model)?;
    reserve(run, &mut tables, &twin)?;
    for table in TableId::all() {
        for row in 1..model.count(*table) + 1 {
            let cells = model.cells(*table, row);
            push(run, &mut tables, &twin, *table, cells)?;
            if twin.push(*table, copied(run, cells)?).is_err() {
                return Err(Stop::Memory);
            }
        }
    }
    kept(tables == twin, "tables of the same rows are equal")?;
    match Model::from_tables(tables) {
        Ok(made) => kept(made == *model, "the model of copies is equal"),
        Err(_) => Err(Stop::Broken("the tables of a model are taken")),
    }
}

/// That a root is loaded, by its view too, and its model made of copies of its cells.
pub fn is_loaded(run: &Run, root: &[u8]) -> Result<(), Stop> {
    let model = of_root(run, root)?;
    kept(
        model == of_opened_root(run, root)?,
        "a view makes the model that is loaded",
    )?;
    is_made_again(run, &model)
}

/// That the file is loaded, by its view too, and has the model of its root.
pub fn is_file_loaded(run: &Run) -> Result<(), Stop> {
    let file = image();
    let model = of_file(run, &file)?;
    kept(file == image(), "a load leaves its bytes")?;
    kept(
        model == of_opened_file(run, &file)?,
        "a view makes the model that is loaded",
    )?;
    kept(
        model == of_root(run, &ONE_MODULE)?,
        "a file has the model of its root",
    )
}
