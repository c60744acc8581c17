//! Tests of `cli`: budgets, `rewrite`, `embed`, `info`, `digest`, `compare`, `check` and other reports of several files and of
//! directories, the standard input, hints, escaped arguments, and files and outputs that fail.

mod budgets;
mod comparing;
mod disks;
mod embedding;
mod escaping;
mod fault_answers;
mod hints;
mod info;
mod json;
mod named_lines;
mod one_type;
mod replacing;
mod rewriting;
mod several;
mod terminals;
mod trees;
mod until_fault;
mod visible;
pub(crate) mod writers;
