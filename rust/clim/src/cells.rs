//! The cells of rows.

use crate::library::{bytes, text};
use crate::tables::{Table, Token};
use clim_sys::{
    clim_cell, CLIM_BLOB, CLIM_GUID, CLIM_NULL_GUID, CLIM_NULL_ROW, CLIM_NUMBER, CLIM_ROW, CLIM_SIGNATURE, CLIM_START,
    CLIM_TEXT,
};
use std::fmt;

/// A GUID, in the byte order of the file.
#[derive(Clone, Copy, PartialEq, Eq, PartialOrd, Ord, Hash)]
pub struct Guid(pub [u8; 16]);

impl fmt::Display for Guid {
    fn fmt(&self, f: &mut fmt::Formatter) -> fmt::Result {
        let [a0, a1, a2, a3, b0, b1, c0, c1, d0, d1, e @ ..] = self.0;
        let (a, b, c) = (u32::from_le_bytes([a0, a1, a2, a3]), u16::from_le_bytes([b0, b1]), u16::from_le_bytes([c0, c1]));
        write!(f, "{a:08x}-{b:04x}-{c:04x}-{d0:02x}{d1:02x}-")?;
        e.iter().try_for_each(|byte| write!(f, "{byte:02x}"))
    }
}

impl fmt::Debug for Guid {
    fn fmt(&self, f: &mut fmt::Formatter) -> fmt::Result {
        write!(f, "Guid({self})")
    }
}

/// The blob of a signature (II.23.2): the bytes of the file, without their length.
#[derive(Clone, Copy, Debug, PartialEq, Eq, PartialOrd, Ord, Hash)]
pub struct Signature<'a>(pub &'a [u8]);

/// A cell of a row. Texts, blobs and signatures are parts of the bytes that were opened.
#[derive(Clone, Copy, Debug, PartialEq, Eq, Hash)]
pub enum Cell<'a> {
    /// A number.
    Number(u32),
    /// A text.
    Text(&'a str),
    /// A blob.
    Blob(&'a [u8]),
    /// A GUID, or null.
    Guid(Option<Guid>),
    /// A row of a table, or null.
    Row(Option<Token>),
    /// The first row of the run that the row owns; one after the last row if no member follows.
    Start(u32),
    /// A signature.
    Signature(Signature<'a>),
}

impl<'a> Cell<'a> {
    /// A cell that a call of the library wrote.
    ///
    /// # Safety
    ///
    /// The library wrote the cell of a root that lives and does not change for `'a`.
    pub(crate) unsafe fn of(cell: &clim_cell) -> Cell<'a> {
        // SAFETY: The caller ensures what the calls require.
        unsafe {
            match cell.kind {
                CLIM_NUMBER => Cell::Number(cell.number),
                CLIM_TEXT => Cell::Text(text(&cell.bytes)),
                CLIM_BLOB => Cell::Blob(bytes(&cell.bytes)),
                CLIM_NULL_GUID => Cell::Guid(None),
                CLIM_GUID => Cell::Guid(Some(Guid(cell.guid))),
                CLIM_NULL_ROW => Cell::Row(None),
                CLIM_ROW => Cell::Row(Table::from_number(cell.table).map(|table| Token { table, row: cell.number })),
                CLIM_START => Cell::Start(cell.number),
                CLIM_SIGNATURE => Cell::Signature(Signature(bytes(&cell.bytes))),
                kind => unreachable!("the library wrote a cell of kind {kind}"),
            }
        }
    }
}

/// The value of a cell in a field of a row.
///
/// A column has one kind of cell (II.22), so the library writes no other kind.
pub(crate) trait Column<'a>: Sized {
    /// The value; `None` if the cell is of another kind.
    fn from_cell(cell: Cell<'a>) -> Option<Self>;

    /// The cell with the value, in the column with a name.
    fn to_cell(self, column: &str) -> Cell<'a>;
}

/// The end of the names of the columns that have the start of a run (II.22). No other name ends with it.
const RUN: &str = "List";

macro_rules! columns {
    ($($type:ty: $pattern:pat => $value:expr, |$it:ident, $column:ident| $cell:expr;)*) => {$(
        impl<'a> Column<'a> for $type {
            fn from_cell(cell: Cell<'a>) -> Option<Self> {
                match cell {
                    $pattern => Some($value),
                    _ => None,
                }
            }

            fn to_cell(self, $column: &str) -> Cell<'a> {
                let $it = self;
                $cell
            }
        }
    )*};
}

columns! {
    u32: Cell::Number(it) | Cell::Start(it) => it,
        |it, column| if column.ends_with(RUN) { Cell::Start(it) } else { Cell::Number(it) };
    &'a str: Cell::Text(it) => it, |it, _column| Cell::Text(it);
    &'a [u8]: Cell::Blob(it) => it, |it, _column| Cell::Blob(it);
    Signature<'a>: Cell::Signature(it) => it, |it, _column| Cell::Signature(it);
    Option<Guid>: Cell::Guid(it) => it, |it, _column| Cell::Guid(it);
    Option<Token>: Cell::Row(it) => it, |it, _column| Cell::Row(it);
    Token: Cell::Row(Some(it)) => it, |it, _column| Cell::Row(Some(it));
}
