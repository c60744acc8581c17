use signatures::SigError;
use std::alloc::{AllocError, AllocFailed, Global};
use std::cell::Cell;

/// Why the program ends early.
#[derive(Clone, Copy, Debug, PartialEq, Eq)]
pub enum Stop {
    /// Memory was refused to the program itself.
    Memory,
    /// A call broke this promise.
    Broken(&'static str),
}

/// Goes on where a promise is kept.
pub fn kept(holds: bool, promise: &'static str) -> Result<(), Stop> {
    if holds {
        Ok(())
    } else {
        Err(Stop::Broken(promise))
    }
}

/// The memory of a run, and whether some was refused.
#[derive(Drop)]
pub struct Run {
    /// What allocates.
    pub alloc: Global,
    refused: Cell<bool>,
}

impl Run {
    /// A run of which no memory was refused.
    pub fn new(alloc: Global) -> Run {
        Run {
            alloc,
            refused: Cell::new(false),
        }
    }

    /// What a call returns that is made again. A run has one refusal, so this call has its memory.
    pub fn again<T: Drop, E: Drop>(&self, answer: Result<T, E>) -> Result<T, Stop> {
        self.refused.set(true);
        match answer {
            Ok(value) => Ok(value),
            Err(_) => Err(Stop::Broken("a refused call succeeds when it is made again")),
        }
    }

    /// Whether memory was refused.
    pub fn was_refused(&self) -> bool {
        self.refused.get()
    }
}

impl From<AllocError> for Stop {
    fn from(_: AllocError) -> Stop {
        Stop::Memory
    }
}

impl<T: Drop> From<AllocFailed<T>> for Stop {
    fn from(_: AllocFailed<T>) -> Stop {
        Stop::Memory
    }
}

impl From<SigError> for Stop {
    fn from(error: SigError) -> Stop {
        match error {
            SigError::Memory => Stop::Memory,
            SigError::Bad => Stop::Broken("a signature that is encoded is not bad"),
        }
    }
}
