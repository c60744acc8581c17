use owned_model::LoadError;
use one_refusal::Stop;
use writer::WriteError;

/// What it means that a root which has a model is not loaded.
pub fn not_loaded(error: LoadError) -> Stop {
    match error {
        LoadError::Memory => Stop::Memory,
        LoadError::Fault(_) => Stop::Broken("a root that has a model is loaded"),
    }
}

/// What it means that a small root is not written in place.
pub fn not_written(error: WriteError) -> Stop {
    match error {
        WriteError::Memory => Stop::Memory,
        WriteError::TooLarge => Stop::Broken("a small root is not too large"),
        WriteError::Device { .. } => Stop::Broken("a writer in place does not fail"),
    }
}
