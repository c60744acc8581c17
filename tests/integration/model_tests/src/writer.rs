//! Tests of `writer`.
//!
//! Models that are made cell by cell, and models of roots that are laid out by hand, are written. The bytes are
//! compared with the one canonical root of ECMA-335 Partition II (22 to 24). The root is also sent to writers that
//! fail at the steps that they are given.

mod endings;
mod given_out;
mod loaded;
mod made;
mod orders;
