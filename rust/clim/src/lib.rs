//! Reads the metadata of .NET assemblies (ECMA-335 II.22 to II.25), in place and proved, and makes new metadata.
//!
//! A file is opened if and only if it satisfies all rules. Then each cell is proved to be that of the file's only model. The
//! rows of the 38 tables are structs with a field for each column.
//!
//! ```
//! use clim::rows::{MethodDef, TypeDef};
//!
//! # fn main() -> Result<(), Box<dyn std::error::Error>> {
//! # let file = std::fs::read(concat!(env!("CARGO_MANIFEST_DIR"), "/../../samples/one_module.dll"))?;
//! let view = clim::View::open(&file)?;
//! for (row, its) in view.rows::<TypeDef>().numbered() {
//!     println!("{}", its.type_name);
//!     for method in view.rows_in::<MethodDef>(view.methods_of(row)) {
//!         println!("  {}", method.name);
//!     }
//! }
//! # Ok(())
//! # }
//! ```
//!
//! A view borrows the bytes that were opened, and so do the texts and blobs of its rows. They outlive the view, but not
//! the bytes. So this does not compile:
//!
//! ```compile_fail,E0505
//! use clim::rows::TypeDef;
//!
//! let file = std::fs::read("one.dll").unwrap();
//! let view = clim::View::open(&file).unwrap();
//! let first = view.row::<TypeDef>(1).unwrap();
//! drop(file);
//! println!("{}", first.type_name);
//! ```
//!
//! This one does, because the text is dropped first:
//!
//! ```no_run
//! use clim::rows::TypeDef;
//!
//! let file = std::fs::read("one.dll").unwrap();
//! let view = clim::View::open(&file).unwrap();
//! let first = view.row::<TypeDef>(1).unwrap();
//! println!("{}", first.type_name);
//! drop(file);
//! ```
//!
//! To open and to read, the library allocates nothing, but for the declarations of methods. This crate allocates the cells of
//! some rows at a time, what `by_key`, `arguments_of` and the calls for texts return, and four bytes for each type once an enclosing type is
//! asked for. Rows of a valid file
//! may still form circles, and names may be any text: see `docs/CLIENTS.md`.
//!
//! [`Tables`] has rows that a program adds, or those of a view, which may be changed. [`Tables::root`] checks them against
//! all rules, and makes a metadata root of them. [`embed`] puts a root into a copy of a file.
#![warn(missing_docs)]

mod arguments;
mod building;
mod cells;
mod chunks;
mod compared;
mod constants;
mod embedded;
mod fault;
pub mod flags;
mod library;
mod opened;
mod refusal;
pub mod rows;
mod tables;
mod view;

pub use arguments::{Arguments, AttributeValue, NamedArgument};
pub use building::Tables;
pub use cells::{Cell, Guid, Signature};
pub use chunks::{Cells, Rows};
pub use compared::{CompareError, Difference, Location};
pub use constants::ConstantValue;
pub use embedded::{embed, embed_canonical, EmbedError, StrongName};
pub use fault::{BoundedError, Fault, RootError, TextError, Unsupported};
pub use opened::{open, Assembly, OpenError};
pub use refusal::{BuildError, Refusal};
pub use rows::Row;
pub use tables::{Table, Token};
pub use view::{
    bytes_at, check, check_root, check_root_within, check_within, offset_of, read_header, Header, View, DEPTH,
};

/// The examples of `rust/README.md`, which have to compile.
#[cfg(doctest)]
#[doc = include_str!("../../README.md")]
struct Readme;
