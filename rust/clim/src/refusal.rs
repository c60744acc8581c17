//! Why tables are refused.

use crate::fault::{RootError, Unsupported};
use crate::library;
use crate::tables::Table;
use clim_sys::clim_refusal;
use std::error::Error;
use std::fmt;

/// The rules that are about no table: those of the version and of the user strings.
const WHOLE: [u16; 2] = [302, 510];

/// The first rule that tables break. Attributes that the rule does not concern are `None`.
#[derive(Clone, Copy, Debug, PartialEq, Eq, Hash)]
pub struct Refusal {
    /// The number of the rule, for example 506. `docs/FAULTS.md` explains each.
    pub code: u16,
    /// The table.
    pub table: Option<Table>,
    /// The row, counted from 1.
    pub row: Option<u32>,
    /// The column, counted from 0. A rule about an entire row is reported at column 0.
    pub column: Option<usize>,
}

impl Refusal {
    /// The refusal that the library wrote.
    pub(crate) fn new(it: &clim_refusal) -> Refusal {
        let table = Table::from_number(it.table).filter(|_| !WHOLE.contains(&it.code));
        let row = Some(it.row).filter(|&row| row > 0);
        Refusal { code: it.code, table, row, column: row.map(|_| it.column) }
    }

    /// The layer of the rule, from 1 to 9: the hundreds of its number.
    pub fn layer(&self) -> u8 {
        (self.code / 100) as u8
    }

    /// The name of the rule, for example `"BadIndex"`.
    pub fn name(&self) -> &'static str {
        match self.code {
            // Only tables can break these rules, and the library has no names for them.
            509 => "BadCell",
            510 => "UserBytes",
            code => library::fault_name(code),
        }
    }

    /// The name of the column; `None` if there is none, as for a cell that is too much in its row.
    pub fn column_name(&self) -> Option<&'static str> {
        Some(library::column_name(self.table?.number(), self.column?)).filter(|name| !name.is_empty())
    }

    /// What `clim explain` prints of the rule, in lines that are not broken.
    ///
    /// # Errors
    ///
    /// The library is older than this crate.
    pub fn explanation(&self) -> Result<String, Unsupported> {
        library::explanation(self.code)
    }
}

impl fmt::Display for Refusal {
    fn fmt(&self, f: &mut fmt::Formatter) -> fmt::Result {
        write!(f, "refusal {} {}", self.layer(), self.code)?;
        if let Some(table) = self.table {
            write!(f, " at {table}")?;
        }
        if let Some(row) = self.row {
            write!(f, " {row}")?;
        }
        if let Some(column) = self.column_name() {
            write!(f, " {column}")?;
        }
        write!(f, ": {}", self.name())
    }
}

impl Error for Refusal {}

/// Why tables make no root.
#[derive(Clone, Copy, Debug, PartialEq, Eq, Hash)]
pub enum BuildError {
    /// The tables break a rule.
    Refused(Refusal),
    /// The root would have more than 2^30 bytes.
    TooLong,
    /// Memory ran out.
    NoMemory,
    /// The library is older than this crate.
    Unsupported(Unsupported),
}

impl From<RootError> for BuildError {
    fn from(error: RootError) -> BuildError {
        match error {
            RootError::TooLong => BuildError::TooLong,
            RootError::NoMemory => BuildError::NoMemory,
            RootError::Unsupported(error) => BuildError::Unsupported(error),
        }
    }
}

impl From<Unsupported> for BuildError {
    fn from(error: Unsupported) -> BuildError {
        BuildError::Unsupported(error)
    }
}

impl fmt::Display for BuildError {
    fn fmt(&self, f: &mut fmt::Formatter) -> fmt::Result {
        match self {
            BuildError::Refused(refusal) => refusal.fmt(f),
            BuildError::TooLong => RootError::TooLong.fmt(f),
            BuildError::NoMemory => RootError::NoMemory.fmt(f),
            BuildError::Unsupported(error) => error.fmt(f),
        }
    }
}

impl Error for BuildError {}
