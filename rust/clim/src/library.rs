//! Calls whose results belong to the library.

use crate::fault::{RootError, TextError, Unsupported};
use clim_sys::{clim_bytes, CLIM_NO_BYTES, CLIM_NO_MEMORY, CLIM_TOO_LONG};
use std::{slice, str};

/// The length that most texts have at most.
pub(crate) const USUAL: usize = 256;

/// The bytes that a call of the library wrote.
///
/// # Safety
///
/// `bytes` was written by a call of the library, and the bytes that it points to live and do not change for `'a`.
pub(crate) unsafe fn bytes<'a>(bytes: &clim_bytes) -> &'a [u8] {
    // SAFETY: The library writes an address that is not null, with the number of bytes that are there.
    unsafe { slice::from_raw_parts(bytes.at, bytes.len) }
}

/// The text that a call of the library wrote.
///
/// # Safety
///
/// The same, and the bytes are a name, or a text of an opened root.
pub(crate) unsafe fn text<'a>(text: &clim_bytes) -> &'a str {
    // SAFETY: Names are ASCII. A root is opened only if its texts are UTF-8, which is rule 502.
    unsafe { str::from_utf8_unchecked(bytes(text)) }
}

/// A name that a call writes.
fn name(write: impl FnOnce(*mut clim_bytes)) -> &'static str {
    let mut name = CLIM_NO_BYTES;
    write(&mut name);
    // SAFETY: Names belong to the library, and it is loaded until the process ends.
    unsafe { text(&name) }
}

/// The text that a call writes into a buffer, as far as there is room, and whose length it returns.
pub(crate) fn written(write: impl Fn(&mut [u8]) -> usize) -> Result<String, TextError> {
    let mut buffer = vec![0; USUAL];
    loop {
        match write(&mut buffer) {
            CLIM_TOO_LONG => return Err(TextError::TooLong),
            CLIM_NO_MEMORY => return Err(TextError::NoMemory),
            len if len <= buffer.len() => return Ok(String::from_utf8_lossy(&buffer[..len]).into_owned()),
            len => buffer.resize(len, 0),
        }
    }
}

/// What `clim explain` prints for a rule, in lines that are not broken.
pub(crate) fn explanation(code: u16) -> Result<String, Unsupported> {
    Unsupported::unless(clim_sys::HAS_EXPLAIN, "clim_explain")?;
    // SAFETY: The pointer is valid for that number of bytes during the call.
    let text = written(|buffer| unsafe { clim_sys::clim_explain(code, buffer.as_mut_ptr(), buffer.len()) });
    Ok(text.unwrap_or_default())
}

/// The length of a canonical root, as a call returned it.
pub(crate) fn root_len(len: usize) -> Result<usize, RootError> {
    match len {
        CLIM_TOO_LONG => Err(RootError::TooLong),
        CLIM_NO_MEMORY => Err(RootError::NoMemory),
        _ => Ok(len),
    }
}

/// The name of the rule with a number; empty if there is none.
pub(crate) fn fault_name(code: u16) -> &'static str {
    // SAFETY: The pointer is valid during the call.
    name(|it| unsafe { clim_sys::clim_fault_name(code, it) })
}

/// The name of the table with a number; empty if there is none.
pub(crate) fn table_name(table: u8) -> &'static str {
    // SAFETY: The pointer is valid during the call.
    name(|it| unsafe { clim_sys::clim_table_name(table, it) })
}

/// The number of cells in a row of the table with a number; 0 if there is none.
pub(crate) fn cell_count(table: u8) -> usize {
    // SAFETY: The call takes no pointer.
    unsafe { clim_sys::clim_cell_count(table) }
}

/// The name of a column; empty if there is none.
pub(crate) fn column_name(table: u8, column: usize) -> &'static str {
    // SAFETY: The pointer is valid during the call.
    name(|it| unsafe { clim_sys::clim_column_name(table, column, it) })
}
