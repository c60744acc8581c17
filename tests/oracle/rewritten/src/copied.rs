use owned_model::{Model, Tables};
use sample_tables::copy_cell;
use schema::TableId;
use std::alloc::{AllocError, Global};

/// Tables of copies of a model's cells; none where a row is refused.
pub fn copied_tables(alloc: Global, model: &Model) -> Result<Option<Tables>, AllocError> {
    let mut tables = Tables::new(alloc, model.version())?;
    tables.set_user(model.user().to_vec(alloc)?);
    for table in TableId::all() {
        for row in 1..model.count(*table) + 1 {
            let mut cells = Vec::new(alloc);
            for cell in model.cells(*table, row) {
                cells.push(copy_cell(alloc, cell)?)?;
            }
            if tables.push(*table, cells).is_err() {
                return Ok(None);
            }
        }
    }
    Ok(Some(tables))
}
