use owned_model::{Bytes, Cell, Text};
use std::alloc::{AllocError, Global};

/// A cell that says the same as another, and shares nothing with it. The only error is lack of memory.
pub fn copy_cell(alloc: Global, cell: &Cell) -> Result<Cell, AllocError> {
    match cell {
        Cell::Number(number) => Ok(Cell::Number(*number)),
        Cell::Text(text) => Ok(Cell::Text(Text::from(String::from_str(alloc, text.as_str())?))),
        Cell::Bytes(bytes) => Ok(Cell::Bytes(Bytes::from(bytes.as_slice().to_vec(alloc)?))),
        Cell::Guid(guid) => Ok(Cell::Guid(*guid)),
        Cell::Ref(reference) => Ok(Cell::Ref(*reference)),
        Cell::Start(row) => Ok(Cell::Start(*row)),
        Cell::Sig(signature) => Ok(Cell::Sig(signature.copy(alloc)?)),
    }
}
