//! Tests of loads: roots and files are loaded, and the models compared with tables that were made by hand, with
//! one another, and with what opening shows.
//!
//! All bytes that are loaded are opened too. Both have to report the same fault, or the model has to say what the view
//! shows. Each model is copied, cell by cell, and the copies have to make an equal model.

mod changed_bytes;
mod equal_models;
mod images;
mod known_cells;
