use crate::judged_cells::{has_cells, shows_cells, tables_of};
use crate::judged_lookups::judge_lookups;
use crate::plain_model::PlainModel;
use crate::plain_reader::read_plain;
use crate::plain_root::Refused;
use crate::plain_writer::write_plain;
use crate::random::Random;
use model::{
    Fault, LoadError, Model, View, WriteError, load_root, open_root, write_root, write_root_within,
};
use std::alloc::{AllocError, AllocFailed, Global};

/// One in how many models is written a second time, and made of its cells again.
const SELDOM: u32 = 3;

/// Why a case ends early.
#[derive(Debug, Drop)]
pub enum Stop {
    /// Memory was refused.
    Memory,
    /// A promise was broken.
    Broken(String),
}

impl From<AllocError> for Stop {
    fn from(_: AllocError) -> Stop {
        Stop::Memory
    }
}

impl<T: Drop> From<AllocFailed<T>> for Stop {
    fn from(_: AllocFailed<T>) -> Stop {
        Stop::Memory
    }
}

/// A promise that was broken.
pub fn broken(alloc: Global, promise: &str) -> Stop {
    match String::from_str(alloc, promise) {
        Ok(promise) => Stop::Broken(promise),
        Err(_) => Stop::Memory,
    }
}

/// How many roots and files were tried, and how they were answered.
#[derive(Clone, Copy, Debug)]
pub struct Tally {
    pub loaded: u32,
    /// Those that were refused, by the code.
    pub refused: [u32; 1000],
    /// Tables that made a model.
    pub made: u32,
    /// Tables that were refused.
    pub unmade: u32,
    /// Signatures that were tried alone.
    pub signatures: u32,
}

impl Tally {
    /// None yet.
    pub fn new() -> Tally {
        Tally {
            loaded: 0,
            refused: [0; 1000],
            made: 0,
            unmade: 0,
            signatures: 0,
        }
    }

    /// Counts what was refused by a code.
    pub fn count_refused(&mut self, code: u16) {
        let count = &mut self.refused[code as usize];
        *count = count.saturating_add(1);
    }
}

/// Whether a fault is of a rule at an offset.
pub fn is_fault(fault: &Fault, code: u16, offset: usize) -> bool {
    fault.code == code
        && fault.offset == offset as u64
        && u16::from(fault.layer) == code / 100
        && !fault.name().is_empty()
}

/// That two answers differ from what the standard says.
pub fn other_answer<A, B>(
    alloc: Global,
    expected: &Result<A, Refused>,
    opened: Option<&Fault>,
    loaded: Option<&B>,
) -> Stop
where
    B: std::fmt::Debug,
{
    let said = match expected {
        Err(Refused::Fault(code, offset)) => Some((*code, *offset)),
        _ => None,
    };
    match format!(in alloc; "expected {said:?}, opened {opened:?}, loaded {loaded:?}") {
        Ok(text) => Stop::Broken(text),
        Err(_) => Stop::Memory,
    }
}

/// Opens and loads a root, and compares the result with what the standard says, read plainly. If the result
/// is a model, the root is one of its roots.
pub fn judge_root(
    alloc: Global,
    random: &mut Random,
    root: &[u8],
    model: Option<&PlainModel>,
    tally: &mut Tally,
) -> Result<(), Stop> {
    let expected = read_plain(alloc, root);
    let opened = open_root(root);
    let loaded = load_root(alloc, root);
    match (&expected, &opened, &loaded) {
        (Err(Refused::Memory), _, _) | (_, _, Err(LoadError::Memory)) => Err(Stop::Memory),
        (Err(Refused::Fault(code, offset)), Err(fault), Err(LoadError::Fault(other)))
            if is_fault(fault, *code, *offset) && fault == other => {
            if model.is_some() {
                return Err(broken(alloc, "a root of a model is refused"));
            }
            tally.count_refused(*code);
            Ok(())
        }
        (Ok(plain), Ok(view), Ok(loaded)) => {
            if model.is_some_and(|model| model != plain) {
                return Err(broken(alloc, "a root of a model has another"));
            }
            tally.loaded = tally.loaded.saturating_add(1);
            judge_model(alloc, random, plain, view, loaded)
        }
        _ => Err(other_answer(
            alloc,
            &expected,
            opened.as_ref().err(),
            loaded.as_ref().err(),
        )),
    }
}

/// Holds a view and a model of a root against what the root says.
pub fn judge_model(
    alloc: Global,
    random: &mut Random,
    plain: &PlainModel,
    view: &View,
    loaded: &Model,
) -> Result<(), Stop> {
    if !has_cells(alloc, loaded, plain)? {
        return Err(broken(alloc, "a loaded model has other cells"));
    }
    if !shows_cells(alloc, view, plain)? {
        return Err(broken(alloc, "a view shows other cells"));
    }
    judge_lookups(alloc, random, plain, view, loaded)?;
    judge_written(alloc, random, plain, loaded)?;
    if random.is_one_in(SELDOM) {
        return judge_copy(alloc, plain, loaded);
    }
    Ok(())
}

/// Makes the model of the same cells.
fn judge_copy(alloc: Global, plain: &PlainModel, loaded: &Model) -> Result<(), Stop> {
    match Model::from_tables(tables_of(alloc, plain)?) {
        Ok(made) if made == *loaded => Ok(()),
        Ok(_) => Err(broken(alloc, "the model of the same cells is another")),
        Err(_) => Err(broken(alloc, "the cells of a model are refused")),
    }
}

/// Holds a model that was made of tables against these.
pub fn judge_made(
    alloc: Global,
    random: &mut Random,
    plain: &PlainModel,
    made: &Model,
) -> Result<(), Stop> {
    if !has_cells(alloc, made, plain)? {
        return Err(broken(alloc, "a model that was made has other cells"));
    }
    judge_written(alloc, random, plain, made)
}

/// Writes a model, and sometimes loads and writes it again.
fn judge_written(
    alloc: Global,
    random: &mut Random,
    plain: &PlainModel,
    model: &Model,
) -> Result<(), Stop> {
    let canonical = written(alloc, model)?;
    if canonical != write_plain(alloc, plain)? {
        return Err(broken(alloc, "another root is written"));
    }
    if !random.is_one_in(SELDOM) {
        return Ok(());
    }
    let len = canonical.len() as u32;
    let is_limited = matches!(
        write_root_within(alloc, model, len - 1),
        Err(WriteError::TooLarge)
    );
    if !is_limited || write_root_within(alloc, model, len) != Ok(written(alloc, model)?) {
        return Err(broken(alloc, "a limit on a root's length is kept otherwise"));
    }
    match load_root(alloc, canonical.as_slice()) {
        Ok(again) if again != *model => Err(broken(alloc, "a written root loads to another model")),
        Ok(again) if written(alloc, &again)? != canonical => {
            Err(broken(alloc, "a written root is written otherwise"))
        }
        Ok(_) => Ok(()),
        Err(LoadError::Memory) => Err(Stop::Memory),
        Err(LoadError::Fault(_)) => Err(broken(alloc, "a written root is refused")),
    }
}

/// The canonical root of a model.
fn written(alloc: Global, model: &Model) -> Result<Vec<u8>, Stop> {
    match write_root(alloc, model) {
        Ok(root) => Ok(root),
        Err(WriteError::Memory) => Err(Stop::Memory),
        Err(_) => Err(broken(alloc, "a small root is too large")),
    }
}
