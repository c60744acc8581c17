//! Tables and models for tests (ECMA-335 II.22), written cell by cell.
//!
//! [`Written`] is a cell as a test writes it. [`tables_with`] gives valid tables of three rows each, by
//! which [`Change`]s they are not, and [`root_of_whole_tables`] the canonical root of these; the functions
//! `model_of_..` make the models of small roots. [`copy_cell`] copies a cell that has been made.

mod copied;
mod models;
mod whole_root;
mod whole_tables;
mod written_cells;

pub use copied::copy_cell;
pub use models::{
    GUID, VERSION, model_of, model_of_module, model_of_no_rows, model_of_two_types, tables_of,
};
pub use whole_root::root_of_whole_tables;
pub use whole_tables::{Change, tables_with};
pub use written_cells::{Written, cells_of};
