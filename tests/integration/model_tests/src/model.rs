//! Tests of look-ups by the public calls of `model`: in a root that is opened in place, and in the model that is
//! loaded from it.
//!
//! Both are asked for the same runs of members, types by name and rows by key. Both results are compared with what
//! ECMA-335 II.22 says of the root's rows.

pub mod both;
mod made_models;
mod names;
mod neighbours;
mod rows_by_key;
mod runs;
mod types_by_name;
