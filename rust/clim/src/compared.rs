//! Where a byte is, and what differs between two roots.

use crate::fault::Unsupported;
use crate::library;
use crate::tables::{Table, Token};
use clim_sys::{
    clim_difference, clim_location, CLIM_CELL_DIFFERS, CLIM_COUNT_DIFFERS, CLIM_USER_DIFFERS, CLIM_VERSION_DIFFERS,
};
use std::error::Error;
use std::fmt;

/// The cell of a table that contains a byte (II.24.2.6).
#[derive(Clone, Copy, Debug, PartialEq, Eq, Hash)]
pub struct Location {
    /// The row.
    pub row: Token,
    /// The column, counted from 0.
    pub column: usize,
    /// The offset of the cell, in bytes from the start of the metadata root.
    pub offset: usize,
    /// The size of the cell in bytes: 1, 2 or 4.
    pub size: usize,
}

impl Location {
    /// The location that the library wrote. `None` if its table is newer than this crate.
    pub(crate) fn new(it: &clim_location) -> Option<Location> {
        let row = Token { table: Table::from_number(it.table)?, row: it.row };
        Some(Location { row, column: it.column, offset: it.offset, size: it.size })
    }

    /// The name of the column.
    pub fn column_name(&self) -> &'static str {
        library::column_name(self.row.table.number(), self.column)
    }
}

/// Something that differs between two roots.
#[derive(Clone, Copy, Debug, PartialEq, Eq, Hash)]
pub enum Difference {
    /// The version string (II.24.2.1).
    Version,
    /// The user strings: the bytes of `#US`, padded with zeros to a multiple of four (II.24.2.4).
    UserStrings,
    /// The number of rows of a table (II.22).
    RowCount {
        /// The table.
        table: Table,
        /// Its number of rows in the first root.
        left: u32,
        /// Its number of rows in the second root.
        right: u32,
    },
    /// A cell of a row that both roots have (II.22).
    Cell {
        /// The row.
        row: Token,
        /// The column, counted from 0.
        column: usize,
    },
}

impl Difference {
    /// The difference that the library wrote. `None` if this crate does not know it.
    pub(crate) fn new(it: &clim_difference) -> Option<Difference> {
        match it.kind {
            CLIM_VERSION_DIFFERS => Some(Difference::Version),
            CLIM_USER_DIFFERS => Some(Difference::UserStrings),
            CLIM_COUNT_DIFFERS => Some(Difference::RowCount {
                table: Table::from_number(it.table)?,
                left: it.left_count,
                right: it.right_count,
            }),
            CLIM_CELL_DIFFERS => {
                let row = Token { table: Table::from_number(it.table)?, row: it.row };
                Some(Difference::Cell { row, column: it.column })
            }
            _ => None,
        }
    }
}

/// Why two roots were not compared.
#[derive(Clone, Copy, Debug, PartialEq, Eq, Hash)]
pub enum CompareError {
    /// Memory ran out.
    NoMemory,
    /// The library is older than this crate.
    Unsupported(Unsupported),
}

impl From<Unsupported> for CompareError {
    fn from(error: Unsupported) -> CompareError {
        CompareError::Unsupported(error)
    }
}

impl fmt::Display for CompareError {
    fn fmt(&self, f: &mut fmt::Formatter) -> fmt::Result {
        match self {
            CompareError::NoMemory => f.write_str("out of memory"),
            CompareError::Unsupported(error) => error.fmt(f),
        }
    }
}

impl Error for CompareError {}
