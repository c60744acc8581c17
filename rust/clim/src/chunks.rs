//! Iterators over rows, which read some rows at a time.

use crate::cells::Cell;
use crate::rows::Row;
use crate::tables::Table;
use crate::view::View;
use clim_sys::{clim_cell, CLIM_NO_CELL};
use std::iter::Zip;
use std::marker::PhantomData;
use std::ops::{Range, RangeFrom};

/// The number of rows that are read at first.
const FIRST_ROWS: usize = 128;

/// The number of rows that are read at a time at most. Each time the number doubles.
const MOST_ROWS: usize = 1 << 14;

/// The cells of some columns, row by row.
#[derive(Clone)]
pub(crate) struct Chunks<'v, 'a> {
    view: &'v View<'a>,
    table: Table,
    columns: Range<usize>,
    /// The rows that were not read.
    unread: Range<u32>,
    /// The cells that were read, column by column.
    cells: Vec<clim_cell>,
    /// The number of rows that were read at a time.
    room: usize,
    /// The rows of `cells` that were not returned, counted from 0.
    ready: Range<usize>,
}

impl<'v, 'a> Chunks<'v, 'a> {
    pub(crate) fn new(view: &'v View<'a>, table: Table, columns: Range<usize>, rows: Range<u32>) -> Chunks<'v, 'a> {
        Chunks { view, table, columns, unread: rows, cells: Vec::new(), room: 0, ready: 0..0 }
    }

    /// Reads the next rows.
    fn read_rows(&mut self) {
        self.room = self.unread.len().min((2 * self.room).clamp(FIRST_ROWS, MOST_ROWS));
        self.cells.resize(self.room * self.columns.len(), CLIM_NO_CELL);
        // No rows of no columns.
        let mut count = self.room.min(self.cells.len());
        for (column, cells) in self.columns.clone().zip(self.cells.chunks_mut(self.room.max(1))) {
            count = count.min(self.view.write_cells(self.table, self.unread.start, column, cells));
        }
        self.unread.start += self.room as u32;
        self.ready = 0..count;
    }

    /// The cells of the next row; `None` if there is none.
    fn next_row(&mut self) -> Option<impl Iterator<Item = Cell<'a>> + '_> {
        if self.ready.is_empty() {
            self.read_rows();
        }
        let row = self.ready.next()?;
        // SAFETY: The library wrote the cells of a root that is borrowed for 'a.
        Some(self.cells[row..].iter().step_by(self.room).map(|cell| unsafe { Cell::of(cell) }))
    }

    /// The number of the next row.
    fn next_number(&self) -> u32 {
        self.unread.start - self.ready.len() as u32
    }

    /// The number of rows to come.
    fn len(&self) -> usize {
        self.ready.len() + self.unread.len()
    }
}

/// The cells of a column. [`View::column`] returns it.
#[derive(Clone)]
pub struct Cells<'v, 'a> {
    pub(crate) chunks: Chunks<'v, 'a>,
}

impl<'a> Iterator for Cells<'_, 'a> {
    type Item = Cell<'a>;

    fn next(&mut self) -> Option<Cell<'a>> {
        self.chunks.next_row()?.next()
    }

    fn size_hint(&self) -> (usize, Option<usize>) {
        (0, Some(self.chunks.len()))
    }
}

/// The rows of a table. [`View::rows`] and [`View::rows_in`] return it.
#[derive(Clone)]
pub struct Rows<'v, 'a, R> {
    pub(crate) chunks: Chunks<'v, 'a>,
    pub(crate) row: PhantomData<R>,
}

impl<'a, R: Row<'a>> Iterator for Rows<'_, 'a, R> {
    type Item = R;

    fn next(&mut self) -> Option<R> {
        let cells = self.chunks.next_row()?;
        Some(R::from_cells(cells).expect("a column has cells of one kind"))
    }

    fn size_hint(&self) -> (usize, Option<usize>) {
        (self.chunks.len(), Some(self.chunks.len()))
    }
}

impl<'a, R: Row<'a>> ExactSizeIterator for Rows<'_, 'a, R> {}

impl<'a, R: Row<'a>> Rows<'_, 'a, R> {
    /// The rows with their numbers, counted from 1: `for (number, row) in view.rows::<TypeDef>().numbered()`.
    pub fn numbered(self) -> Zip<RangeFrom<u32>, Self> {
        (self.chunks.next_number()..).zip(self)
    }
}
