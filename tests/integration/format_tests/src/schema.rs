//! Tests of `schema`: tables, widths and layouts on both sides of their limits, coded indexes, tokens, and each fault
//! of a table stream. The columns of all tables are compared with the standard in `column_names`.

mod coded_lists;
mod column_names;
mod layouts;
