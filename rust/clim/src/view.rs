//! Opened roots.

use crate::cells::Cell;
use crate::chunks::{Cells, Chunks, Rows};
use crate::compared::{CompareError, Difference, Location};
use crate::fault::{BoundedError, Fault, RootError, TextError, Unsupported};
use crate::library;
use crate::rows::{NestedClass, Row, TypeDef};
use crate::tables::{Table, Token, MOST_ROWS};
use clim_sys::{
    clim_attribute_item, clim_cell, clim_fault, clim_header, clim_view, CLIM_CLOSED, CLIM_EQUAL, CLIM_NO_BYTES, CLIM_NO_CELL,
    CLIM_NO_DIFFERENCE, CLIM_NO_FAULT, CLIM_NO_LOCATION, CLIM_NO_MEMORY,
};
use std::fmt;
use std::marker::PhantomData;
use std::ops::Range;
use std::sync::OnceLock;

/// The number of types in one full name, from the innermost outwards. `..` stands for those that are left out.
pub const DEPTH: usize = 64;

/// The columns of the name and the namespace of a type (II.22.37).
const NAME: usize = 1;
const NAMESPACE: usize = 2;

/// The CLI header of a file (II.25.3.3), its offset, and the offsets where the metadata root begins and ends.
pub type Header = clim_header;

/// The result of a call that returned whether it succeeded, and else wrote a fault.
fn result<T>(call: impl FnOnce(&mut T, &mut clim_fault) -> bool, mut found: T) -> Result<T, Fault> {
    let mut fault = CLIM_NO_FAULT;
    if call(&mut found, &mut fault) {
        Ok(found)
    } else {
        Err(fault.into())
    }
}

/// The same of a call within a budget, which also wrote whether the budget was spent.
fn bounded_result<T>(
    call: impl FnOnce(&mut T, &mut clim_fault, &mut bool) -> bool,
    mut found: T,
) -> Result<T, BoundedError> {
    let (mut fault, mut spent) = (CLIM_NO_FAULT, false);
    match (call(&mut found, &mut fault, &mut spent), spent) {
        (true, _) => Ok(found),
        (false, true) => Err(BoundedError::BudgetSpent),
        (false, false) => Err(BoundedError::Fault(fault.into())),
    }
}

/// Checks a file, without keeping anything.
///
/// # Errors
///
/// The file breaks a rule of II.22 to II.25. The fault is that of the first one.
pub fn check(file: &[u8]) -> Result<(), Fault> {
    // SAFETY: The pointers are valid during the call.
    result(|(), fault| unsafe { clim_sys::clim_check(file.as_ptr(), file.len(), fault) }, ())
}

/// Checks a bare metadata root, without the file around it (II.24.2.1).
///
/// # Errors
///
/// The root breaks a rule. The fault is that of the first one.
pub fn check_root(root: &[u8]) -> Result<(), Fault> {
    // SAFETY: The pointers are valid during the call.
    result(|(), fault| unsafe { clim_sys::clim_check_root(root.as_ptr(), root.len(), fault) }, ())
}

/// Checks a file within a budget: the number of bytes of texts and signatures that it may check at most.
///
/// # Errors
///
/// The file breaks a rule, the budget is spent, or the library lacks the function.
pub fn check_within(file: &[u8], budget: u64) -> Result<(), BoundedError> {
    Unsupported::unless(clim_sys::HAS_CHECK_WITHIN, "clim_check_within")?;
    // SAFETY: The pointers are valid during the call.
    let check = |(): &mut (), fault: &mut _, spent: &mut _| unsafe {
        clim_sys::clim_check_within(file.as_ptr(), file.len(), budget, fault, spent)
    };
    bounded_result(check, ())
}

/// Checks a bare metadata root within a budget.
///
/// # Errors
///
/// The root breaks a rule, the budget is spent, or the library lacks the function.
pub fn check_root_within(root: &[u8], budget: u64) -> Result<(), BoundedError> {
    Unsupported::unless(clim_sys::HAS_CHECK_ROOT_WITHIN, "clim_check_root_within")?;
    // SAFETY: The pointers are valid during the call.
    let check = |(): &mut (), fault: &mut _, spent: &mut _| unsafe {
        clim_sys::clim_check_root_within(root.as_ptr(), root.len(), budget, fault, spent)
    };
    bounded_result(check, ())
}

/// Reads the CLI header of a file. The tables are not checked.
///
/// # Errors
///
/// The headers or the directory of the root break a rule. The fault is that of the first one.
pub fn read_header(file: &[u8]) -> Result<Header, Fault> {
    // SAFETY: The pointers are valid during the call, and each has a value.
    let read = |header: &mut _, fault: &mut _| unsafe {
        clim_sys::clim_read_header(file.as_ptr(), file.len(), header, fault)
    };
    result(read, Header::default())
}

/// The offset in a file of `size` bytes at a relative virtual address (II.25.3), such as that of a method body or a directory
/// of a [`Header`]. They are in the first section that contains all of them. `None` if the file does not have them, or is no
/// image: only the PE headers are checked.
///
/// # Errors
///
/// The library is older than this crate.
pub fn offset_of(file: &[u8], rva: u32, size: u32) -> Result<Option<usize>, Unsupported> {
    Unsupported::unless(clim_sys::HAS_OFFSET_OF, "clim_offset_of")?;
    let mut offset = 0;
    // SAFETY: The pointers are valid during the call.
    let found = unsafe { clim_sys::clim_offset_of(file.as_ptr(), file.len(), rva, size, &mut offset) };
    Ok(found.then_some(offset))
}

/// The `size` bytes of a file at a relative virtual address; `None` if [`offset_of`] has none.
///
/// # Errors
///
/// The library is older than this crate.
pub fn bytes_at(file: &[u8], rva: u32, size: u32) -> Result<Option<&[u8]>, Unsupported> {
    let offset = offset_of(file, rva, size)?;
    Ok(offset.and_then(|start| file.get(start..)?.get(..size as usize)))
}

/// The text that a function writes of the row with a token; `None` if there is no such row, or it has none.
fn row_text(row: Token, write: impl Fn(u32, &mut [u8]) -> usize) -> Result<Option<String>, TextError> {
    if row.row > MOST_ROWS {
        return Ok(None);
    }
    let text = library::written(|buffer| write(row.into(), buffer))?;
    Ok(Some(text).filter(|it| !it.is_empty()))
}

/// An opened metadata root. It borrows the bytes that were opened. Its texts and blobs are parts of these bytes, and may
/// be used after the view is dropped.
///
/// Opening checks all rules and allocates nothing. Rows count from 1.
///
/// Nothing copies the bytes, so nothing may change them while they are borrowed, as for any `&[u8]`. A map of a file does
/// not ensure that: if another process writes the file, each call is undefined behaviour. The `unsafe` code that makes such
/// a slice is responsible for it. Read the file instead, or copy the map.
#[derive(Clone)]
pub struct View<'a> {
    view: clim_view,
    /// The type that encloses each type, once it was asked for. A look-up for each type would walk the entire table, if its
    /// rows are not in order.
    enclosing: OnceLock<Vec<u32>>,
    bytes: PhantomData<&'a [u8]>,
}

// SAFETY: The pointers of a view lead into bytes that are borrowed, and nothing writes these. The library keeps no state.
unsafe impl Send for View<'_> {}
// SAFETY: The same.
unsafe impl Sync for View<'_> {}

impl fmt::Debug for View<'_> {
    fn fmt(&self, f: &mut fmt::Formatter) -> fmt::Result {
        f.debug_struct("View").field("version", &self.version()).finish_non_exhaustive()
    }
}

impl<'a> View<'a> {
    /// Opens a file.
    ///
    /// # Errors
    ///
    /// The file breaks a rule of II.22 to II.25. The fault is that of the first one.
    pub fn open(file: &'a [u8]) -> Result<View<'a>, Fault> {
        // SAFETY: The pointers are valid during the call, and each has a value.
        let open = |view: &mut _, fault: &mut _| unsafe { clim_sys::clim_open(file.as_ptr(), file.len(), view, fault) };
        result(open, CLIM_CLOSED).map(View::of)
    }

    /// Opens a bare metadata root, without the file around it (II.24.2.1).
    ///
    /// # Errors
    ///
    /// The root breaks a rule. The fault is that of the first one.
    pub fn open_root(root: &'a [u8]) -> Result<View<'a>, Fault> {
        // SAFETY: The pointers are valid during the call, and each has a value.
        let open = |view: &mut _, fault: &mut _| unsafe {
            clim_sys::clim_open_root(root.as_ptr(), root.len(), view, fault)
        };
        result(open, CLIM_CLOSED).map(View::of)
    }

    /// Opens a file within a budget: the number of bytes of texts and signatures that it may check at most.
    ///
    /// # Errors
    ///
    /// The file breaks a rule, the budget is spent, or the library lacks the function.
    pub fn open_within(file: &'a [u8], budget: u64) -> Result<View<'a>, BoundedError> {
        Unsupported::unless(clim_sys::HAS_OPEN_WITHIN, "clim_open_within")?;
        // SAFETY: The pointers are valid during the call, and each has a value.
        let open = |view: &mut _, fault: &mut _, spent: &mut _| unsafe {
            clim_sys::clim_open_within(file.as_ptr(), file.len(), budget, view, fault, spent)
        };
        bounded_result(open, CLIM_CLOSED).map(View::of)
    }

    /// Opens a bare metadata root within a budget.
    ///
    /// # Errors
    ///
    /// The root breaks a rule, the budget is spent, or the library lacks the function.
    pub fn open_root_within(root: &'a [u8], budget: u64) -> Result<View<'a>, BoundedError> {
        Unsupported::unless(clim_sys::HAS_OPEN_ROOT_WITHIN, "clim_open_root_within")?;
        // SAFETY: The pointers are valid during the call, and each has a value.
        let open = |view: &mut _, fault: &mut _, spent: &mut _| unsafe {
            clim_sys::clim_open_root_within(root.as_ptr(), root.len(), budget, view, fault, spent)
        };
        bounded_result(open, CLIM_CLOSED).map(View::of)
    }

    /// Writes the cells of a column, from a row on. Returns the number of cells that were written.
    pub(crate) fn write_cells(&self, table: Table, first: u32, column: usize, cells: &mut [clim_cell]) -> usize {
        // SAFETY: The view is open, and the pointer is valid for that number of cells during the call.
        unsafe {
            clim_sys::clim_cells(&self.view, table.number(), first, column, cells.as_mut_ptr(), cells.len())
        }
    }

    /// Writes the items of the value of an attribute. Returns what `clim_attribute_items` returns.
    pub(crate) fn write_items(&self, row: u32, items: &mut [clim_attribute_item]) -> usize {
        // SAFETY: The view is open, and the pointer is valid for that number of items during the call.
        unsafe { clim_sys::clim_attribute_items(&self.view, row, items.as_mut_ptr(), items.len()) }
    }

    /// A view that the library opened of bytes that are borrowed for `'a`.
    fn of(view: clim_view) -> View<'a> {
        View { view, enclosing: OnceLock::new(), bytes: PhantomData }
    }

    /// The bytes of the root.
    pub(crate) fn root(&self) -> &'a [u8] {
        // SAFETY: The view is open, and its root is a part of the bytes that were opened.
        unsafe { library::bytes(&self.view.root) }
    }

    /// The version string of the root, for example `"v4.0.30319"` (II.24.2.1).
    pub fn version(&self) -> &'a str {
        let mut version = CLIM_NO_BYTES;
        // SAFETY: The view is open, and the version is a part of the root, in UTF-8 (rule 302).
        unsafe {
            clim_sys::clim_version(&self.view, &mut version);
            library::text(&version)
        }
    }

    /// The bytes of `#US`, as they are in the root (II.24.2.4).
    pub fn user(&self) -> &'a [u8] {
        let mut user = CLIM_NO_BYTES;
        // SAFETY: The view is open, and the bytes are a part of the root.
        unsafe {
            clim_sys::clim_user(&self.view, &mut user);
            library::bytes(&user)
        }
    }

    /// The number of rows in a table.
    pub fn count(&self, table: Table) -> u32 {
        // SAFETY: The view is open.
        unsafe { clim_sys::clim_count(&self.view, table.number()) }
    }

    /// A cell of a row. Columns count from 0. `None` if there is no such row or column.
    ///
    /// A call takes some microseconds. [`View::column`] reads many cells faster.
    pub fn cell(&self, table: Table, row: u32, column: usize) -> Option<Cell<'a>> {
        let mut cell = CLIM_NO_CELL;
        // SAFETY: The view is open. If the cell is written, its bytes are a part of the root.
        unsafe {
            clim_sys::clim_cell_at(&self.view, table.number(), row, column, &mut cell).then(|| Cell::of(&cell))
        }
    }

    /// The cells of a column, from row 1 on. There are none if the table has no such column.
    pub fn column(&self, table: Table, column: usize) -> Cells<'_, 'a> {
        Cells { chunks: Chunks::new(self, table, column..column.saturating_add(1), 1..self.count(table) + 1) }
    }

    /// The rows of a table, for example `view.rows::<TypeDef>()`.
    pub fn rows<R: Row<'a>>(&self) -> Rows<'_, 'a, R> {
        self.rows_in(1..self.count(R::TABLE) + 1)
    }

    /// The rows of a table in a range, for example `view.rows_in::<MethodDef>(view.methods_of(row))`. Rows that are not
    /// there are left out.
    ///
    /// Each range takes a call of the library for each column, of some microseconds. If you need all rows, [`View::rows`]
    /// is faster than many ranges.
    pub fn rows_in<R: Row<'a>>(&self, rows: Range<u32>) -> Rows<'_, 'a, R> {
        let there = rows.start.max(1)..rows.end.min(self.count(R::TABLE) + 1);
        Rows { chunks: Chunks::new(self, R::TABLE, 0..R::COLUMNS.len(), there), row: PhantomData }
    }

    /// A row, by its number; `None` if there is none.
    pub fn row<R: Row<'a>>(&self, number: u32) -> Option<R> {
        self.rows_in(number..number.checked_add(1)?).next()
    }

    /// The rows of a table that a row owns (II.22). `None` if there is no such row, or its table owns none of that table.
    pub fn members(&self, owner: Token, member: Table) -> Option<Range<u32>> {
        let (mut first, mut past) = (0, 0);
        // SAFETY: The view is open, and the pointers are valid during the call.
        let found = unsafe {
            let table = owner.table.number();
            clim_sys::clim_members(&self.view, table, owner.row, member.number(), &mut first, &mut past)
        };
        found.then_some(first..past)
    }

    /// The rows of Field of a type; empty if there is no such type.
    pub fn fields_of(&self, type_row: u32) -> Range<u32> {
        self.owned(Table::TypeDef, type_row, Table::Field)
    }

    /// The rows of MethodDef of a type; empty if there is no such type.
    pub fn methods_of(&self, type_row: u32) -> Range<u32> {
        self.owned(Table::TypeDef, type_row, Table::MethodDef)
    }

    /// The rows of Param of a method; empty if there is no such method.
    pub fn params_of(&self, method_row: u32) -> Range<u32> {
        self.owned(Table::MethodDef, method_row, Table::Param)
    }

    fn owned(&self, table: Table, row: u32, member: Table) -> Range<u32> {
        self.members(Token { table, row }, member).unwrap_or(1..1)
    }

    /// The first row of TypeDef with a namespace and a name.
    pub fn find_type(&self, namespace: &str, name: &str) -> Option<u32> {
        // SAFETY: The view is open, and the pointers are valid during the call.
        let row = unsafe {
            clim_sys::clim_find_type(&self.view, namespace.as_ptr(), namespace.len(), name.as_ptr(), name.len())
        };
        (row > 0).then_some(row)
    }

    /// The first type whose full name it is: `System.String`, or `Hello.Greeter/Settings` for a type that is nested in another.
    /// All before the last dot of a part is the namespace, as in a path of `clim outline`.
    ///
    /// It looks at each type once, and allocates in proportion to the number of types.
    pub fn find_full_name(&self, full_name: &str) -> Option<u32> {
        let parts: Vec<_> = full_name.split('/').map(|part| part.rsplit_once('.').unwrap_or(("", part))).collect();
        if let [(namespace, name)] = parts[..] {
            let first = self.find_type(namespace, name)?;
            if self.enclosing_type(first).is_none() {
                return Some(first);
            }
        }
        let names = self.column(Table::TypeDef, NAMESPACE).zip(self.column(Table::TypeDef, NAME));
        // By rows: the part that is the name of a type, if those before it are the names of the types that enclose it. The row
        // of an enclosing type is lower (rule 604).
        let mut part_of: Vec<Option<usize>> = vec![None];
        for (row, its) in (1..).zip(names) {
            let part = match self.enclosing_type(row) {
                Some(outer) => part_of.get(outer as usize).copied().flatten().map(|part| part + 1),
                None => Some(0),
            };
            let is_name = |&(namespace, name): &(&str, &str)| its == (Cell::Text(namespace), Cell::Text(name));
            let part = part.filter(|&part| parts.get(part).is_some_and(is_name));
            if part == Some(parts.len() - 1) {
                return Some(row);
            }
            part_of.push(part);
        }
        None
    }

    /// The rows of a table whose key is a row, in ascending order; none if the table has no key (II.22).
    ///
    /// They are found by binary search. Each call passes over all rows if these are not in order of their keys, as in crafted
    /// files; to look up many keys, read the table once.
    pub fn by_key(&self, table: Table, key: Token) -> Vec<u32> {
        let mut rows = vec![0; 16];
        loop {
            // SAFETY: The view is open, and the pointer is valid for that number of rows during the call.
            let count = unsafe {
                let (key_table, room) = (key.table.number(), rows.len());
                clim_sys::clim_rows_by_key(&self.view, table.number(), key_table, key.row, rows.as_mut_ptr(), room)
            };
            if count < rows.len() {
                rows.truncate(count);
                return rows;
            }
            rows.resize(rows.len() * 16, 0);
        }
    }

    /// The signature of a row in the notation of ILAsm (II.7.1, II.15.3), such as `method instance string *(int32, class
    /// 01000007)`. A type is written as its token. `None` if there is no such row, if it has no signature, or if the text has
    /// more than 65,536 bytes, as in crafted files.
    ///
    /// # Errors
    ///
    /// The library is older than this crate.
    pub fn signature_text(&self, row: Token) -> Result<Option<String>, Unsupported> {
        Unsupported::unless(clim_sys::HAS_SIGNATURE_TEXT, "clim_signature_text")?;
        let Some(column) = row.table.signature_column() else {
            return Ok(None);
        };
        // SAFETY: The view is open, and the pointer is valid for that number of bytes during the call.
        let text = library::written(|buffer| unsafe {
            let (table, room) = (row.table.number(), buffer.len());
            clim_sys::clim_signature_text(&self.view, table, row.row, column, buffer.as_mut_ptr(), room)
        });
        Ok(text.ok().filter(|it| !it.is_empty()))
    }

    /// The name of a row in the notation of ILAsm (II.5.3), such as `Hello.Greeter::Greet` or `Namespace.Outer/Inner`. A name
    /// that is no identifier is quoted, as in `'<Module>'`; so the text is ASCII. A row without a name is `..`. `None` if
    /// there is no such row.
    ///
    /// # Errors
    ///
    /// The name is too long, or the library is older than this crate.
    pub fn name_of(&self, row: Token) -> Result<Option<String>, TextError> {
        Unsupported::unless(clim_sys::HAS_ROW_NAME, "clim_row_name")?;
        // SAFETY: The view is open, and the pointer is valid for that number of bytes during the call.
        row_text(row, |token, buffer| unsafe {
            clim_sys::clim_row_name(&self.view, token, buffer.as_mut_ptr(), buffer.len())
        })
    }

    /// The declaration of a type, a field, a method or a property, in the notation of ILAsm: of a type its full name, of a
    /// field its signature and its own name (II.16.1), of a method `string Hello.Greeter::Greet(string name, int32 times)`
    /// (II.15.3), and of a property `instance int32 Hello.Greeter::Item(string)` (II.17). The names in it are those of
    /// [`View::name_of`]. `None` for any other row, or if there is no such row.
    ///
    /// # Errors
    ///
    /// The declaration is too long, memory ran out, or the library is older than this crate.
    pub fn declaration(&self, row: Token) -> Result<Option<String>, TextError> {
        Unsupported::unless(clim_sys::HAS_DECLARATION, "clim_declaration")?;
        // SAFETY: The view is open, and the pointer is valid for that number of bytes during the call.
        row_text(row, |token, buffer| unsafe {
            clim_sys::clim_declaration(&self.view, token, buffer.as_mut_ptr(), buffer.len())
        })
    }

    /// The UTF-16 units of the user string of a token such as 0x70000001, as `ldstr` uses it (II.24.2.4). `None` if the
    /// token is another one, or `#US` has no user string there. The units need not be valid UTF-16.
    ///
    /// # Errors
    ///
    /// The library is older than this crate.
    pub fn user_string(&self, token: u32) -> Result<Option<Vec<u16>>, Unsupported> {
        Unsupported::unless(clim_sys::HAS_USER_STRING, "clim_user_string")?;
        let (mut units, mut count, mut flag) = (vec![0; library::USUAL], 0, 0);
        loop {
            // SAFETY: The view is open, and the pointers are valid during the call.
            let found = unsafe {
                let (buffer, room) = (units.as_mut_ptr(), units.len());
                clim_sys::clim_user_string(&self.view, token, buffer, room, &mut count, &mut flag)
            };
            if !found {
                return Ok(None);
            }
            if count <= units.len() {
                units.truncate(count);
                return Ok(Some(units));
            }
            units.resize(count, 0);
        }
    }

    /// The canonical root, which `clim rewrite` writes (II.24.2). Two files have the same canonical root if and only if
    /// they have the same metadata.
    ///
    /// # Errors
    ///
    /// It would have more than 2^30 bytes, memory ran out, or the library is older than this crate.
    pub fn canonical_root(&self) -> Result<Vec<u8>, RootError> {
        Unsupported::unless(clim_sys::HAS_CANONICAL_ROOT, "clim_canonical_root")?;
        let mut root = Vec::new();
        let mut room = self.view.root.len;
        loop {
            root.try_reserve_exact(room).map_err(|_| RootError::NoMemory)?;
            root.resize(room, 0);
            // SAFETY: The view is open, and the pointer is valid for that number of bytes during the call.
            let len = library::root_len(unsafe {
                clim_sys::clim_canonical_root(&self.view, root.as_mut_ptr(), room)
            })?;
            if len <= room {
                root.truncate(len);
                return Ok(root);
            }
            root.clear();
            room = len;
        }
    }

    /// The SHA-256 of the canonical root.
    ///
    /// # Errors
    ///
    /// Those of [`View::canonical_root`].
    pub fn digest(&self) -> Result<[u8; 32], RootError> {
        Unsupported::unless(clim_sys::HAS_DIGEST, "clim_digest")?;
        let mut digest = [0; 32];
        // SAFETY: The view is open, and the pointer is valid for 32 bytes during the call.
        library::root_len(unsafe { clim_sys::clim_digest(&self.view, digest.as_mut_ptr()) })?;
        Ok(digest)
    }

    /// The cell of a table that contains the byte at an offset (II.24.2.6). `None` if no cell contains it. The offset counts from
    /// the start of the metadata root: of a file, subtract [`Header`]'s `root_start` first.
    ///
    /// # Errors
    ///
    /// The library is older than this crate.
    pub fn where_is(&self, offset: usize) -> Result<Option<Location>, Unsupported> {
        Unsupported::unless(clim_sys::HAS_WHERE, "clim_where")?;
        let mut location = CLIM_NO_LOCATION;
        // SAFETY: The view is open, and the pointer is valid during the call.
        let found = unsafe { clim_sys::clim_where(&self.view, offset, &mut location) };
        Ok(if found { Location::new(&location) } else { None })
    }

    /// The first difference from another view: the version, the user strings, the number of rows of a table, or a cell.
    /// `None` if both have the same metadata, and so the same canonical root.
    ///
    /// # Errors
    ///
    /// Memory ran out, or the library is older than this crate.
    pub fn difference(&self, other: &View) -> Result<Option<Difference>, CompareError> {
        Unsupported::unless(clim_sys::HAS_COMPARE, "clim_compare")?;
        let mut difference = CLIM_NO_DIFFERENCE;
        // SAFETY: Both views are open, and the pointer is valid during the call.
        match unsafe { clim_sys::clim_compare(&self.view, &other.view, &mut difference) } {
            CLIM_EQUAL => Ok(None),
            CLIM_NO_MEMORY => Err(CompareError::NoMemory),
            _ => Ok(Difference::new(&difference)),
        }
    }

    /// The namespace and the names of a type and of those that enclose it: `Namespace.Outer/Inner`. Empty if there is no
    /// such type. At most [`DEPTH`] types are written; `..` stands for those that enclose them.
    pub fn full_name(&self, type_row: u32) -> String {
        let mut parts = Vec::new();
        let mut next = Some(type_row);
        while let Some(its) = next.filter(|_| parts.len() < DEPTH).and_then(|row| self.row::<TypeDef>(row)) {
            let dot = if its.type_namespace.is_empty() { "" } else { "." };
            parts.push(format!("{}{dot}{}", its.type_namespace, its.type_name));
            next = next.and_then(|row| self.enclosing_type(row));
        }
        if parts.len() == DEPTH && next.is_some() {
            parts.push("..".into());
        }
        parts.reverse();
        parts.join("/")
    }

    /// The type that directly encloses a type, by its row (II.22.32).
    pub fn enclosing_type(&self, type_row: u32) -> Option<u32> {
        let enclosing = self.enclosing.get_or_init(|| self.read_enclosing());
        enclosing.get(type_row as usize).copied().filter(|&row| row > 0)
    }

    /// The type that encloses each type, by their rows; 0 if none does. If several rows have one nested type, the first
    /// counts.
    fn read_enclosing(&self) -> Vec<u32> {
        let mut enclosing = vec![0; self.count(Table::TypeDef) as usize + 1];
        for its in self.rows::<NestedClass>() {
            if let Some(outer @ 0) = enclosing.get_mut(its.nested_class.row as usize) {
                *outer = its.enclosing_class.row;
            }
        }
        enclosing
    }
}
