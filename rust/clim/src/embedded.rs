//! Copies of a file with another root (II.25).

use crate::fault::{Fault, RootError, Unsupported};
use crate::library;
use crate::view::check_root;
use clim_sys::{
    CLIM_BAD_FILE, CLIM_BAD_ROOT, CLIM_CLEAR_STRONG_NAME, CLIM_HEADERS_OVERLAP, CLIM_KEEP_STRONG_NAME, CLIM_NO_FAULT,
    CLIM_NO_ROOM, CLIM_OCCUPIED, CLIM_UNLIKE,
};
use std::error::Error;
use std::fmt;

/// The number of bytes by which a copy is mostly longer than the file and its root.
const PADDING: usize = 1 << 16;

/// What becomes of the strong name of a file, whose hash is no longer right (II.25.3.3).
#[derive(Clone, Copy, Debug, PartialEq, Eq, Hash)]
pub enum StrongName {
    /// Its flag and its directory stay. A tool that has the key can write the hash again.
    Keep,
    /// Its flag is cleared, and its directory becomes 0.
    Clear,
}

impl StrongName {
    /// Its number in `c/clim.h`.
    fn number(self) -> u8 {
        match self {
            StrongName::Keep => CLIM_KEEP_STRONG_NAME,
            StrongName::Clear => CLIM_CLEAR_STRONG_NAME,
        }
    }
}

/// Why no copy of a file is made.
#[derive(Clone, Copy, Debug, PartialEq, Eq, Hash)]
pub enum EmbedError {
    /// The file breaks a rule.
    File(Fault),
    /// The root breaks a rule.
    Root(Fault),
    /// The root does not lead into the file: its methods, its addresses or its user strings are others.
    Unlike,
    /// The headers of the file overlap.
    Headers,
    /// The range of the old root has something else in it: a header, a directory, a method body or the data of a field.
    Occupied,
    /// The root is longer than the old one, there is no room for another section header, and the last section cannot be
    /// extended.
    NoRoom,
    /// The root or the copy would have more than 2^30 bytes.
    TooLong,
    /// Memory ran out.
    NoMemory,
    /// The library is older than this crate.
    Unsupported(Unsupported),
}

impl From<RootError> for EmbedError {
    fn from(error: RootError) -> EmbedError {
        match error {
            RootError::TooLong => EmbedError::TooLong,
            RootError::NoMemory => EmbedError::NoMemory,
            RootError::Unsupported(error) => EmbedError::Unsupported(error),
        }
    }
}

impl From<Unsupported> for EmbedError {
    fn from(error: Unsupported) -> EmbedError {
        EmbedError::Unsupported(error)
    }
}

impl fmt::Display for EmbedError {
    fn fmt(&self, f: &mut fmt::Formatter) -> fmt::Result {
        match self {
            EmbedError::File(fault) => write!(f, "the file: {fault}"),
            EmbedError::Root(fault) => write!(f, "the root: {fault}"),
            EmbedError::Unlike => {
                f.write_str("the root does not lead into the file: its methods, its addresses or its user strings are others")
            }
            EmbedError::Headers => f.write_str("the headers of the file overlap"),
            EmbedError::Occupied => f.write_str("the range of the old root has something else in it"),
            EmbedError::NoRoom => f.write_str("there is no room for the root"),
            EmbedError::TooLong => f.write_str("the root or the copy has more than 2^30 bytes"),
            EmbedError::NoMemory => RootError::NoMemory.fmt(f),
            EmbedError::Unsupported(error) => error.fmt(f),
        }
    }
}

impl Error for EmbedError {}

/// A copy of a file with another metadata root, which `clim embed` writes (II.25). [`View::open`](crate::View::open) opens
/// it, with the metadata of the root.
///
/// The root must lead into the file: it has the same number of methods and of fields with data, with the same RVAs, the same
/// user strings, and no fewer rows of File. So take the rows of the file by [`Tables::of`](crate::Tables::of), change names,
/// flags or signatures, and give what [`Tables::root`](crate::Tables::root) returns. It goes where the old root is, if it fits
/// there, and otherwise into a new section, or into a longer last one.
///
/// ```
/// use clim::{Cell, StrongName, Table, Tables, Token, View};
///
/// # fn main() -> Result<(), Box<dyn std::error::Error>> {
/// # let file = std::fs::read(concat!(env!("CARGO_MANIFEST_DIR"), "/../../samples/members.dll"))?;
/// let mut tables = Tables::of(&View::open(&file)?);
/// tables.set(Token { table: Table::TypeDef, row: 2 }, 1, Cell::Text("Renamed"));
/// let copy = clim::embed(&file, &tables.root()?, StrongName::Keep)?;
/// let name = View::open(&copy)?.cell(Table::TypeDef, 2, 1);
/// assert_eq!(name, Some(Cell::Text("Renamed")));
/// # Ok(())
/// # }
/// ```
///
/// # Errors
///
/// The file or the root breaks a rule, the root does not lead into the file or cannot be put there, memory ran out, or the
/// library is older than this crate.
pub fn embed(file: &[u8], root: &[u8], strong_name: StrongName) -> Result<Vec<u8>, EmbedError> {
    if root.is_empty() {
        // The library takes no bytes for the file's own canonical root.
        check_root(root).map_err(EmbedError::Root)?;
    }
    copy(file, root, strong_name)
}

/// A copy of a file with its own canonical root, which `clim rewrite` writes (II.25, II.24.2).
///
/// # Errors
///
/// Those of [`embed`].
pub fn embed_canonical(file: &[u8], strong_name: StrongName) -> Result<Vec<u8>, EmbedError> {
    copy(file, &[], strong_name)
}

/// A copy of a file with a root; with its own canonical root if that has no bytes.
fn copy(file: &[u8], root: &[u8], strong_name: StrongName) -> Result<Vec<u8>, EmbedError> {
    Unsupported::unless(clim_sys::HAS_EMBED, "clim_embed")?;
    let mut room = file.len() + root.len() + PADDING;
    let mut copy = Vec::new();
    loop {
        copy.try_reserve_exact(room).map_err(|_| EmbedError::NoMemory)?;
        copy.resize(room, 0);
        let mut fault = CLIM_NO_FAULT;
        // SAFETY: The pointers are valid for these numbers of bytes during the call.
        let len = unsafe {
            clim_sys::clim_embed(
                file.as_ptr(), file.len(), root.as_ptr(), root.len(), strong_name.number(), copy.as_mut_ptr(), room,
                &mut fault,
            )
        };
        let len = match len {
            CLIM_BAD_FILE => return Err(EmbedError::File(fault.into())),
            CLIM_BAD_ROOT => return Err(EmbedError::Root(fault.into())),
            CLIM_UNLIKE => return Err(EmbedError::Unlike),
            CLIM_HEADERS_OVERLAP => return Err(EmbedError::Headers),
            CLIM_OCCUPIED => return Err(EmbedError::Occupied),
            CLIM_NO_ROOM => return Err(EmbedError::NoRoom),
            len => library::root_len(len)?,
        };
        if len <= room {
            copy.truncate(len);
            return Ok(copy);
        }
        copy.clear();
        room = len;
    }
}
