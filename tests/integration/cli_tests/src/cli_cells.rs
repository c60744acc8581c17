//! Tests of `cli_cells`: rows, tokens and user strings.

mod first_rows;
mod one_table;
mod printed_rows;
