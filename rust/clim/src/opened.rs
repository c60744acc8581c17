//! Files that own their bytes.

use crate::fault::{BoundedError, Fault, Unsupported};
use crate::view::{bytes_at, View};
use std::error::Error;
use std::fmt;
use std::fs::File;
use std::io::{self, Read};
use std::path::Path;
use std::ptr::NonNull;

/// The number of bytes that a file has at most; a longer one is fault 101.
const LIMIT: u64 = 1 << 30;

/// Why a file is not opened.
#[derive(Debug)]
pub enum OpenError {
    /// The file cannot be read.
    Io(io::Error),
    /// The file breaks a rule.
    Fault(Fault),
}

impl From<io::Error> for OpenError {
    fn from(error: io::Error) -> OpenError {
        OpenError::Io(error)
    }
}

impl From<Fault> for OpenError {
    fn from(fault: Fault) -> OpenError {
        OpenError::Fault(fault)
    }
}

impl fmt::Display for OpenError {
    fn fmt(&self, f: &mut fmt::Formatter) -> fmt::Result {
        match self {
            OpenError::Io(error) => error.fmt(f),
            OpenError::Fault(fault) => fault.fmt(f),
        }
    }
}

impl Error for OpenError {
    fn source(&self) -> Option<&(dyn Error + 'static)> {
        match self {
            OpenError::Io(error) => Some(error),
            OpenError::Fault(fault) => Some(fault),
        }
    }
}

/// An opened file, with its bytes. [`open`] reads it.
pub struct Assembly {
    /// A view of `bytes`. No call returns it with the lifetime that it has here.
    view: View<'static>,
    /// The bytes, which this owns. As a pointer, since a `Box` that is moved may not have other references into it.
    bytes: NonNull<[u8]>,
}

// SAFETY: The bytes are only read, and belong to this value.
unsafe impl Send for Assembly {}
// SAFETY: The same.
unsafe impl Sync for Assembly {}

impl Assembly {
    /// Opens the bytes of a file.
    ///
    /// # Errors
    ///
    /// They break a rule. The fault is that of the first one.
    pub fn from_bytes(bytes: Vec<u8>) -> Result<Assembly, Fault> {
        Assembly::opened(bytes, View::open)
    }

    /// Opens the bytes of a file within a budget, as [`View::open_within`] does.
    ///
    /// # Errors
    ///
    /// They break a rule, the budget is spent, or the library lacks the function.
    pub fn from_bytes_within(bytes: Vec<u8>, budget: u64) -> Result<Assembly, BoundedError> {
        Assembly::opened(bytes, |bytes| View::open_within(bytes, budget))
    }

    /// Opens bytes, and owns them then.
    fn opened<E>(bytes: Vec<u8>, open: impl FnOnce(&'static [u8]) -> Result<View<'static>, E>) -> Result<Assembly, E> {
        let bytes = NonNull::from(Box::leak(bytes.into_boxed_slice()));
        // SAFETY: The bytes are there until `free`, and nothing writes them.
        let opened = open(unsafe { bytes.as_ref() });
        match opened {
            Ok(view) => Ok(Assembly { view, bytes }),
            Err(error) => {
                // SAFETY: They were leaked above, and no view of them is left.
                unsafe { free(bytes) };
                Err(error)
            }
        }
    }

    /// The view of the file. Its texts and blobs may be used as long as the assembly.
    pub fn view(&self) -> &View<'_> {
        &self.view
    }

    /// The bytes of the file.
    pub fn bytes(&self) -> &[u8] {
        // SAFETY: The bytes are there as long as this value.
        unsafe { self.bytes.as_ref() }
    }

    /// The `size` bytes at a relative virtual address; `None` if the file does not have them. See
    /// [`offset_of`](crate::offset_of).
    ///
    /// # Errors
    ///
    /// The library is older than this crate.
    pub fn bytes_at(&self, rva: u32, size: u32) -> Result<Option<&[u8]>, Unsupported> {
        bytes_at(self.bytes(), rva, size)
    }
}

impl fmt::Debug for Assembly {
    fn fmt(&self, f: &mut fmt::Formatter) -> fmt::Result {
        f.debug_tuple("Assembly").field(&self.view).finish()
    }
}

impl Drop for Assembly {
    fn drop(&mut self) {
        // SAFETY: They were leaked by `from_bytes`. The view does not read them when it is dropped.
        unsafe { free(self.bytes) };
    }
}

/// Frees bytes.
///
/// # Safety
///
/// They are those of a `Box` that was leaked, and nothing reads them any more.
unsafe fn free(bytes: NonNull<[u8]>) {
    // SAFETY: As above.
    drop(unsafe { Box::from_raw(bytes.as_ptr()) });
}

/// Reads and opens a file.
///
/// ```
/// # fn main() -> Result<(), clim::OpenError> {
/// # let path = concat!(env!("CARGO_MANIFEST_DIR"), "/../../samples/members.dll");
/// let assembly = clim::open(path)?;
/// for (row, its) in assembly.view().rows::<clim::rows::TypeDef>().numbered() {
///     println!("{row} {}", its.type_name);
/// }
/// # Ok(())
/// # }
/// ```
///
/// # Errors
///
/// The file cannot be read, or breaks a rule. At most 2^30 + 1 bytes are read.
pub fn open(path: impl AsRef<Path>) -> Result<Assembly, OpenError> {
    let mut bytes = Vec::new();
    File::open(path)?.take(LIMIT + 1).read_to_end(&mut bytes)?;
    Ok(Assembly::from_bytes(bytes)?)
}
