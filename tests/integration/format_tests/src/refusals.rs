//! Tests of `check_tables`: what a model of tables is refused with, from the first rule to the last.

mod rule_order;
mod edges;
mod row_counts;
