//! Tests of the records of all 38 tables, by the public calls of `records`, `model_records`, `view_records`
//! and the crates below them.
//!
//! A root with a row of each table is laid out by the columns that `schema` lists. Its cells are read as records,
//! which give the cells back. The fields of the records have the names that ECMA-335 II.22 gives the columns. The
//! records of the root in place are those of its model in memory. Small roots are read byte by byte as records.

mod each_table;
mod field_names;
mod full_root;
mod in_place;
mod laid_out;
mod resolved;
mod small_roots;
mod standard;
