//! Tests of the crates that read and make the parts of a file, by their public calls: headers, heaps, tables and
//! signatures, and the cells and tables in memory of which models are made. The tests of a crate are in the module of
//! its name; `signatures` has those of `sig_encoder` too.

#[cfg(test)]
mod cli_header;
#[cfg(test)]
mod zero_padded;
#[cfg(test)]
mod heaps;
#[cfg(test)]
mod images;
#[cfg(test)]
mod nested;
#[cfg(test)]
mod owned_model;
#[cfg(test)]
mod packed;
#[cfg(test)]
mod pe;
#[cfg(test)]
mod refusals;
#[cfg(test)]
mod root;
#[cfg(test)]
mod rows;
#[cfg(test)]
mod schema;
#[cfg(test)]
mod sig_items;
#[cfg(test)]
mod sig_recogniser;
#[cfg(test)]
mod sig_text;
#[cfg(test)]
mod signatures;
#[cfg(test)]
mod tables;
#[cfg(test)]
mod user_heap;
