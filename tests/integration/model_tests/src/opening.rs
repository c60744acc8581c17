//! Tests of `opening`: what a view shows, and the first fault.
//!
//! Roots are samples, or are laid out from rows and heaps by the builder of `sample_roots`. Cells, runs, texts, the
//! order of keys and faults are compared with what ECMA-335 Partition II (22 to 25) says of them. Bytes that are
//! refused are loaded too: `owned_model` has to report the same fault. What is expected of changed bytes was found by
//! another reader, written from the standard alone.

mod budgets;
mod built_roots;
mod changed_bytes;
mod first_faults;
mod images;
mod key_order;
mod lifetimes;
mod prefixes;
mod roots;
mod runs;
mod samples;
mod signatures;
mod views_made_again;
