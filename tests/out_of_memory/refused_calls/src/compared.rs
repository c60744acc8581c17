use comparison::{Difference, differences, differing_cells, is_equal};
use one_refusal::{Run, Stop, kept};
use opening::{TableId, View, open_root};
use sample_roots::{NAMES_APART, NAMES_SHARED, TWO_TYPES};
use std::alloc::AllocError;

/// The offset of the type in the signature of both fields of `TWO_TYPES`.
const FIELD_TYPE: usize = 195;

/// ELEMENT_TYPE_U4 (II.23.1.16).
const U4: u8 = 0x09;

/// The number of differing cells that are wanted at most.
const LIMIT: usize = 20;

/// A call on two views that can run out of memory.
type Compared<T> = fn(&Run, &View<'_>, &View<'_>) -> Result<T, AllocError>;

/// The view of a root that has a model.
fn opened(root: &[u8]) -> Result<View<'_>, Stop> {
    open_root(root).map_err(|_| Stop::Broken("a root that has a model is opened"))
}

/// What a call returns, made again where memory was refused.
fn returned<T: Drop>(
    run: &Run,
    call: Compared<T>,
    left: &View<'_>,
    right: &View<'_>,
) -> Result<T, Stop> {
    match call(run, left, right) {
        Ok(value) => Ok(value),
        Err(_) => run.again(call(run, left, right)),
    }
}

/// That two roots of one model are equal, and what differs between two others is found.
pub fn are_compared(run: &Run) -> Result<(), Stop> {
    let (shared, apart) = (opened(&NAMES_SHARED)?, opened(&NAMES_APART)?);
    let equal: Compared<bool> = |run, left, right| is_equal(run.alloc, left, right);
    kept(
        returned(run, equal, &shared, &apart)?,
        "two roots of one model are equal",
    )?;
    let mut changed = TWO_TYPES;
    changed[FIELD_TYPE] = U4;
    let (left, right) = (opened(&TWO_TYPES)?, opened(&changed)?);
    kept(
        !returned(run, equal, &left, &right)?,
        "fields of other types are not equal",
    )?;
    let cell = |row: u32| Difference::Cell {
        table: TableId::Field,
        row,
        cell_index: 2,
    };
    let wanted = [cell(1), cell(2)];
    let all: Compared<Vec<Difference>> =
        |run, left, right| differences(run.alloc, left, right, LIMIT);
    kept(
        returned(run, all, &left, &right)?.as_slice() == wanted.as_slice(),
        "both signatures differ",
    )?;
    let cells: Compared<Vec<Difference>> =
        |run, left, right| differing_cells(run.alloc, left, right, LIMIT);
    kept(
        returned(run, cells, &left, &right)?.as_slice() == wanted.as_slice(),
        "both cells differ",
    )
}
