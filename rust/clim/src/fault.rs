//! The errors of opening.

use crate::library;
use clim_sys::clim_fault;
use std::error::Error;
use std::fmt;

/// The first rule that some bytes break. Its text is the line that `clim check` prints.
#[derive(Clone, Copy, Debug, PartialEq, Eq, Hash)]
pub struct Fault {
    /// The layer of the rule, from 1 to 9: the hundreds of its number.
    pub layer: u8,
    /// The number of the rule, for example 501. `docs/FAULTS.md` explains each.
    pub code: u16,
    /// The offset in the bytes that were opened.
    pub offset: u64,
}

impl Fault {
    /// The name of the rule, for example `"BadString"`.
    pub fn name(&self) -> &'static str {
        library::fault_name(self.code)
    }

    /// What `clim explain` prints of the rule, in lines that are not broken.
    ///
    /// # Errors
    ///
    /// The library is older than this crate.
    pub fn explanation(&self) -> Result<String, Unsupported> {
        library::explanation(self.code)
    }
}

impl From<clim_fault> for Fault {
    fn from(fault: clim_fault) -> Fault {
        Fault { layer: fault.layer, code: fault.code, offset: fault.offset }
    }
}

impl fmt::Display for Fault {
    fn fmt(&self, f: &mut fmt::Formatter) -> fmt::Result {
        write!(f, "fault {} {} at {}: {}", self.layer, self.code, self.offset, self.name())
    }
}

impl Error for Fault {}

/// The library is older than this crate, and lacks a function of `c/clim.h`.
#[derive(Clone, Copy, Debug, PartialEq, Eq, Hash)]
pub struct Unsupported {
    /// The name of the function.
    pub function: &'static str,
}

impl Unsupported {
    /// An error unless the library has a function.
    pub(crate) fn unless(has: bool, function: &'static str) -> Result<(), Unsupported> {
        if has {
            Ok(())
        } else {
            Err(Unsupported { function })
        }
    }
}

impl fmt::Display for Unsupported {
    fn fmt(&self, f: &mut fmt::Formatter) -> fmt::Result {
        write!(f, "this library of clim has no function {}", self.function)
    }
}

impl Error for Unsupported {}

/// Why checking or opening within a budget failed.
#[derive(Clone, Copy, Debug, PartialEq, Eq, Hash)]
pub enum BoundedError {
    /// The bytes break a rule.
    Fault(Fault),
    /// The texts and signatures of the file have more bytes than the budget allows.
    BudgetSpent,
    /// The library is older than this crate.
    Unsupported(Unsupported),
}

impl From<Unsupported> for BoundedError {
    fn from(error: Unsupported) -> BoundedError {
        BoundedError::Unsupported(error)
    }
}

impl fmt::Display for BoundedError {
    fn fmt(&self, f: &mut fmt::Formatter) -> fmt::Result {
        match self {
            BoundedError::Fault(fault) => fault.fmt(f),
            BoundedError::BudgetSpent => f.write_str("the budget is spent"),
            BoundedError::Unsupported(error) => error.fmt(f),
        }
    }
}

impl Error for BoundedError {}

/// Why there is no canonical root.
#[derive(Clone, Copy, Debug, PartialEq, Eq, Hash)]
pub enum RootError {
    /// It would have more than 2^30 bytes.
    TooLong,
    /// Memory ran out.
    NoMemory,
    /// The library is older than this crate.
    Unsupported(Unsupported),
}

impl From<Unsupported> for RootError {
    fn from(error: Unsupported) -> RootError {
        RootError::Unsupported(error)
    }
}

impl fmt::Display for RootError {
    fn fmt(&self, f: &mut fmt::Formatter) -> fmt::Result {
        match self {
            RootError::TooLong => f.write_str("the canonical root has more than 2^30 bytes"),
            RootError::NoMemory => f.write_str("out of memory"),
            RootError::Unsupported(error) => error.fmt(f),
        }
    }
}

impl Error for RootError {}

/// Why there is no text of a row.
#[derive(Clone, Copy, Debug, PartialEq, Eq, Hash)]
pub enum TextError {
    /// It has more than 65,536 bytes, as in crafted files.
    TooLong,
    /// Memory ran out.
    NoMemory,
    /// The library is older than this crate.
    Unsupported(Unsupported),
}

impl From<Unsupported> for TextError {
    fn from(error: Unsupported) -> TextError {
        TextError::Unsupported(error)
    }
}

impl fmt::Display for TextError {
    fn fmt(&self, f: &mut fmt::Formatter) -> fmt::Result {
        match self {
            TextError::TooLong => f.write_str("the text has more than 65,536 bytes"),
            TextError::NoMemory => f.write_str("out of memory"),
            TextError::Unsupported(error) => error.fmt(f),
        }
    }
}

impl Error for TextError {}
