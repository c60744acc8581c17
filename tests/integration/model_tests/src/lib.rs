//! Tests of the crates that make a view or a model of the bytes of a root or a file, and of those that write a root, by
//! their public calls. The tests of a crate are in the module of its name; `records` has those of all crates of records.
//!
//! `heaps` plans a strings heap up to its limit of 2^30 bytes. `writer` is given a root of 4000 rows whose names are
//! endings of one text of 7000 letters: 20 million bytes of text, which take one entry of the canonical heap.

#[cfg(test)]
mod compared;
#[cfg(test)]
mod errors;
#[cfg(test)]
mod reports;
#[cfg(test)]
mod form;
#[cfg(test)]
mod heaps;
#[cfg(test)]
mod loading;
#[cfg(test)]
mod model;
#[cfg(test)]
mod opening;
#[cfg(test)]
mod records;
#[cfg(test)]
mod root_plan;
#[cfg(test)]
mod scripted;
#[cfg(test)]
mod shown;
#[cfg(test)]
mod views;
#[cfg(test)]
mod writer;
