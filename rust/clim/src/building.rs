//! Tables that a program fills, and the metadata root that they make (II.22, II.24.2).

use crate::cells::Cell;
use crate::fault::Unsupported;
use crate::library;
use crate::refusal::{BuildError, Refusal};
use crate::rows::Row;
use crate::tables::{Table, Token};
use crate::view::View;
use clim_sys::{
    clim_bytes, clim_cell, clim_row, CLIM_BLOB, CLIM_GUID, CLIM_NO_REFUSAL, CLIM_NULL_GUID, CLIM_NULL_ROW,
    CLIM_NUMBER, CLIM_ROW, CLIM_SIGNATURE, CLIM_START, CLIM_TEXT,
};
use std::collections::BTreeMap;
use std::fmt;
use std::ops::Range;

/// The number of bytes of a root that are neither cells nor heaps, at most.
const HEADS: usize = 1000;

/// The number of bytes of a cell at most, with what a heap adds to its text or blob, and a GUID.
const CELL: usize = 4 + 5 + 16;

/// The number of bytes of `#US` to a multiple of which it is padded (II.24.2.2).
const ALIGNMENT: usize = 4;

/// The tables that a program fills. [`Tables::root`] checks them against all rules, and makes a metadata root of them.
///
/// ```
/// use clim::rows::{MethodDef, Module, TypeDef};
/// use clim::{Signature, Table, Tables, View};
///
/// # fn main() -> Result<(), Box<dyn std::error::Error>> {
/// let mut tables = Tables::new("v4.0.30319");
/// tables.add(&Module { generation: 0, name: "one.dll", mvid: None, enc_id: None, enc_base_id: None });
/// for type_name in ["<Module>", "Greeter"] {
///     tables.add(&TypeDef {
///         flags: 0,
///         type_name,
///         type_namespace: "",
///         extends: None,
///         field_list: tables.next_row(Table::Field),
///         method_list: tables.next_row(Table::MethodDef),
///     });
/// }
/// let signature = Signature(&[0x00, 0x00, 0x01]);
/// let param_list = tables.next_row(Table::Param);
/// tables.add(&MethodDef { rva: 0, impl_flags: 0, flags: 0x96, name: "Greet", signature, param_list });
/// let root = tables.root()?;
/// assert_eq!(View::open_root(&root)?.methods_of(2), 1..2);
/// # Ok(())
/// # }
/// ```
#[derive(Clone)]
pub struct Tables {
    version: String,
    user: Vec<u8>,
    /// A copy of the root of a view, if there is one, and then the texts, blobs and signatures of cells that were added.
    content: Vec<u8>,
    rows: BTreeMap<Table, Vec<Vec<KeptCell>>>,
}

/// A cell of a row that was added.
#[derive(Clone)]
struct KeptCell {
    /// Where its text, blob or signature is.
    content: Range<usize>,
    number: u32,
    kind: u8,
    table: u8,
    guid: [u8; 16],
}

impl Tables {
    /// Empty tables with a version string, for example `"v4.0.30319"` (II.24.2.1).
    pub fn new(version: &str) -> Tables {
        Tables { version: version.into(), user: Vec::new(), content: Vec::new(), rows: BTreeMap::new() }
    }

    /// The tables of a view, copied: its version, its user strings and all rows. Their texts and blobs are parts of one
    /// copy of the root.
    pub fn of(view: &View) -> Tables {
        let mut tables = Tables::new(view.version());
        tables.set_user(view.user());
        let root = view.root();
        tables.content = root.to_vec();
        for table in Table::ALL {
            let mut columns: Vec<_> = (0..table.columns().count()).map(|it| view.column(table, it)).collect();
            let rows = (0..view.count(table)).map(|_| {
                columns.iter_mut().filter_map(Iterator::next).map(|cell| kept(&cell, |part| range_of(part, root))).collect()
            });
            tables.rows.insert(table, rows.collect());
        }
        tables
    }

    /// Sets the bytes of `#US` (II.24.2.4). Zeros are added up to a multiple of four.
    pub fn set_user(&mut self, user: &[u8]) {
        self.user = user.to_vec();
        self.user.resize(user.len().next_multiple_of(ALIGNMENT), 0);
    }

    /// The number of rows in a table.
    pub fn count(&self, table: Table) -> u32 {
        self.rows.get(&table).map_or(0, |rows| rows.len() as u32)
    }

    /// The row that a table gets next. A run begins with it: so add a type, then its fields and its methods, then the
    /// next type.
    pub fn next_row(&self, table: Table) -> u32 {
        self.count(table) + 1
    }

    /// Adds a row at the end of its table.
    pub fn add<'a, R: Row<'a>>(&mut self, row: &R) -> Token {
        self.push(R::TABLE, &row.cells())
    }

    /// Adds a row at the end of a table, by its cells in the order of the columns. Nothing is checked yet.
    pub fn push(&mut self, table: Table, cells: &[Cell]) -> Token {
        let row = cells.iter().map(|cell| self.keep(cell)).collect();
        self.rows.entry(table).or_default().push(row);
        Token { table, row: self.count(table) }
    }

    /// Sets a cell of a row that was added. Columns count from 0. Returns whether there is such a cell.
    pub fn set(&mut self, row: Token, column: usize, cell: Cell) -> bool {
        let kept = self.keep(&cell);
        let rows = self.rows.get_mut(&row.table);
        let index = (row.row as usize).wrapping_sub(1);
        match rows.and_then(|rows| rows.get_mut(index)).and_then(|cells| cells.get_mut(column)) {
            Some(found) => {
                *found = kept;
                true
            }
            None => false,
        }
    }

    /// Checks the tables against all rules, and returns the canonical root that they make (II.24.2). [`View::open_root`]
    /// opens it, with these rows.
    ///
    /// # Errors
    ///
    /// The tables break a rule, the root would have more than 2^30 bytes, memory ran out, or the library is older than
    /// this crate.
    pub fn root(&self) -> Result<Vec<u8>, BuildError> {
        Unsupported::unless(clim_sys::HAS_TABLES, "clim_tables")?;
        let cells: Vec<_> = self.rows.values().flatten().flatten().map(|cell| self.given(cell)).collect();
        let rows = self.given_rows(&cells);
        let mut room = HEADS + self.user.len() + self.content.len() + CELL * cells.len();
        let mut root = Vec::new();
        loop {
            root.try_reserve_exact(room).map_err(|_| BuildError::NoMemory)?;
            root.resize(room, 0);
            let mut refusal = CLIM_NO_REFUSAL;
            // SAFETY: The pointers are valid for these numbers of items during the call, and so are those of the rows into
            // `cells`, and those of the cells into `self.content`.
            let len = library::root_len(unsafe {
                let (version, user) = (self.version.as_bytes(), &self.user[..]);
                clim_sys::clim_tables(
                    version.as_ptr(), version.len(), user.as_ptr(), user.len(), rows.as_ptr(), rows.len(),
                    root.as_mut_ptr(), room, &mut refusal,
                )
            })?;
            if len == 0 {
                return Err(BuildError::Refused(Refusal::new(&refusal)));
            }
            if len <= room {
                root.truncate(len);
                return Ok(root);
            }
            root.clear();
            room = len;
        }
    }

    /// Keeps what a cell has.
    fn keep(&mut self, cell: &Cell) -> KeptCell {
        kept(cell, |bytes| {
            let start = self.content.len();
            self.content.extend_from_slice(bytes);
            start..self.content.len()
        })
    }

    /// A cell, as the library takes it.
    fn given(&self, cell: &KeptCell) -> clim_cell {
        let content = &self.content[cell.content.clone()];
        let bytes = clim_bytes { at: content.as_ptr(), len: content.len() };
        clim_cell { bytes, number: cell.number, kind: cell.kind, table: cell.table, guid: cell.guid }
    }

    /// The rows, as the library takes them. `cells` has the cells of all rows.
    fn given_rows(&self, cells: &[clim_cell]) -> Vec<clim_row> {
        let mut remainder = cells;
        let rows = self.rows.iter().flat_map(|(table, rows)| rows.iter().map(move |row| (table.number(), row.len())));
        rows.map(|(table, count)| {
            let (its, others) = remainder.split_at(count);
            remainder = others;
            clim_row { cells: its.as_ptr(), count, table }
        })
        .collect()
    }
}

/// The range of a part in the root that contains it.
fn range_of(part: &[u8], root: &[u8]) -> Range<usize> {
    if part.is_empty() {
        return 0..0;
    }
    let start = part.as_ptr() as usize - root.as_ptr() as usize;
    start..start + part.len()
}

/// What a cell contains. `keep` stores its text, blob or signature, and returns where that is.
fn kept(cell: &Cell, keep: impl FnOnce(&[u8]) -> Range<usize>) -> KeptCell {
    let kept = KeptCell { content: 0..0, number: 0, kind: 0, table: 0, guid: [0; 16] };
    match *cell {
        Cell::Number(number) => KeptCell { kind: CLIM_NUMBER, number, ..kept },
        Cell::Start(number) => KeptCell { kind: CLIM_START, number, ..kept },
        Cell::Text(text) => KeptCell { kind: CLIM_TEXT, content: keep(text.as_bytes()), ..kept },
        Cell::Blob(bytes) => KeptCell { kind: CLIM_BLOB, content: keep(bytes), ..kept },
        Cell::Signature(signature) => KeptCell { kind: CLIM_SIGNATURE, content: keep(signature.0), ..kept },
        Cell::Guid(None) => KeptCell { kind: CLIM_NULL_GUID, ..kept },
        Cell::Guid(Some(guid)) => KeptCell { kind: CLIM_GUID, guid: guid.0, ..kept },
        Cell::Row(None) => KeptCell { kind: CLIM_NULL_ROW, ..kept },
        Cell::Row(Some(Token { table, row })) => KeptCell { kind: CLIM_ROW, table: table.number(), number: row, ..kept },
    }
}

impl fmt::Debug for Tables {
    fn fmt(&self, f: &mut fmt::Formatter) -> fmt::Result {
        let rows = self.rows.values().map(Vec::len).sum::<usize>();
        f.debug_struct("Tables").field("version", &self.version).field("rows", &rows).finish_non_exhaustive()
    }
}
