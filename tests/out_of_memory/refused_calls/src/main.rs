//! Every call of `packed`, `heaps`, `rows`, `signatures`, `tables`, `owned_model`, `writer`, `full_names`, `declarations`,
//! `comparison` and the crates of records that can run out of memory, once and, if it does, once more.

mod compared;
mod errors;
mod loaded_models;
mod module_row;
mod names_written;
mod numbers;
mod pools;
mod record_cells;
mod signature_blobs;
mod signature_calls;
mod written;

use one_refusal::{Run, Stop, started, reported};
use sample_roots::{NAMES_APART, NAMES_SHARED, ONE_MODULE, TWO_TYPES};
use std::process::ExitCode;

/// Makes the calls of a section, and once more where the program's own buffers had no memory: they have it then,
/// since a run has one refusal.
fn main(rt: HostRuntime) -> ExitCode {
    let (run, section) = started(&rt);
    let answer = match calls_of(&run, section) {
        Err(Stop::Memory) => run.again(calls_of(&run, section)),
        answer => answer,
    };
    reported(&rt, &run, answer)
}

/// Makes the calls of a section, and goes on where they keep their promises.
fn calls_of(run: &Run, section: u32) -> Result<(), Stop> {
    match section {
        1 => loaded_models::is_loaded(run, &ONE_MODULE),
        2 => loaded_models::is_loaded(run, &TWO_TYPES),
        3 => loaded_models::is_loaded(run, &NAMES_APART),
        4 => loaded_models::is_file_loaded(run),
        5 => record_cells::types(run),
        6 => record_cells::members(run),
        7 => record_cells::assemblies(run),
        8 => written::is_written(run, &ONE_MODULE, &ONE_MODULE),
        9 => written::is_written(run, &TWO_TYPES, &TWO_TYPES),
        10 => written::is_written(run, &NAMES_APART, &NAMES_SHARED),
        11 => written::is_prepared_in_place(run, &ONE_MODULE, &ONE_MODULE),
        12 => written::is_prepared_in_place(run, &TWO_TYPES, &TWO_TYPES),
        13 => written::is_prepared_in_place(run, &NAMES_APART, &NAMES_SHARED),
        14 => loaded_models::is_loaded(run, &NAMES_SHARED),
        15 => written::is_written(run, &NAMES_SHARED, &NAMES_SHARED),
        16 => written::is_prepared_in_place(run, &NAMES_SHARED, &NAMES_SHARED),
        17 => written::is_written_within(run, &ONE_MODULE),
        18 => names_written::are_named(run),
        19 => compared::are_compared(run),
        20 => numbers::encoded(run),
        21 => pools::texts(run),
        22 => pools::blobs(run),
        23 => pools::guids(run),
        24 => pools::user_strings(run),
        25 => pools::guid(run),
        26 => module_row::module_after_a_byte(run),
        27 => signature_calls::all_bad(run),
        28 => signature_calls::all_encoded(run),
        29 => pools::first_byte(run),
        30 => pools::planned_blobs(run),
        31 => pools::planned_guids(run),
        32 => pools::texts_at_starts(run),
        _ => Err(Stop::Broken("there is such a section")),
    }
}
