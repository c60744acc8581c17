//! Tests of the crates of the program, by the public calls of `cli`: the lines that it prints, its exit codes, its help
//! and its usage texts, on files that the tests write. The tests of a crate are in the module of its name.
//! [`file_named`] returns the file that the arguments name.

mod named;

pub use named::file_named;

#[cfg(test)]
mod cli;
#[cfg(test)]
mod cli_arguments;
#[cfg(test)]
mod cli_cells;
#[cfg(test)]
mod cli_descriptors;
#[cfg(test)]
mod cli_sending;
#[cfg(test)]
mod cli_faults;
#[cfg(test)]
mod cli_generics;
#[cfg(test)]
mod cli_lines;
#[cfg(test)]
mod cli_outline;
#[cfg(test)]
mod cli_print;
#[cfg(test)]
mod cli_strings;
#[cfg(test)]
mod json_lines;
#[cfg(test)]
mod runs;
#[cfg(test)]
mod samples;
#[cfg(test)]
mod where_files;
#[cfg(test)]
mod where_lines;
