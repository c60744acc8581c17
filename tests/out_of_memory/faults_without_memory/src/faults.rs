use crate::built_roots::count_built;
use crate::reported::{Reported, both, counted, is_refused};
use owned_model::{load_image, load_root};
use sample_roots::{
    FILE_FAULTS, FILE_PREFIXES, FirstFault, PrefixFault, MODULE_FAULTS, MODULE_PREFIXES,
    NESTED_TYPE_FAULTS, ONE_MODULE, THREE_TYPES, TWO_TYPE_FAULTS, TWO_TYPE_PREFIXES, TWO_TYPES,
    change, image,
};
use std::alloc::Global;

/// Loads a root with each of these changes.
fn of_changes<const N: usize>(alloc: Global, root: &[u8; N], faults: &[FirstFault]) -> Reported {
    let mut reported = (0, 0);
    for (changes, code, offset, _) in faults {
        let mut bytes = *root;
        change(&mut bytes, changes);
        reported = counted(reported, is_refused(load_root(alloc, &bytes), *code, *offset));
    }
    reported
}

/// Loads the file with each of its changes.
fn of_changed_files(alloc: Global) -> Reported {
    let mut reported = (0, 0);
    for (changes, code, offset, _) in FILE_FAULTS {
        let mut file = image();
        change(&mut file, changes);
        reported = counted(reported, is_refused(load_image(alloc, &file), code, offset));
    }
    reported
}

/// Loads the longest prefix of a root with each fault.
fn of_prefixes(alloc: Global, root: &[u8], prefixes: &[PrefixFault]) -> Reported {
    prefixes.iter().fold((0, 0), |reported, (len, code, offset)| {
        counted(
            reported,
            is_refused(load_root(alloc, &root[..*len]), *code, *offset),
        )
    })
}

/// Loads the longest prefix of the file with each fault.
fn of_file_prefixes(alloc: Global) -> Reported {
    let file = image();
    FILE_PREFIXES
        .iter()
        .fold((0, 0), |reported, (len, code, offset)| {
            counted(
                reported,
                is_refused(load_image(alloc, &file[..*len]), *code, *offset),
            )
        })
}

/// Loads whatever is refused.
pub fn count_reported(alloc: Global) -> Reported {
    let empty = counted((0, 0), is_refused(load_root(alloc, &[]), 301, 0));
    [
        counted(empty, is_refused(load_image(alloc, b"MZ"), 102, 0)),
        of_changes(alloc, &ONE_MODULE, &MODULE_FAULTS),
        of_changes(alloc, &TWO_TYPES, &TWO_TYPE_FAULTS),
        of_changes(alloc, &THREE_TYPES, &NESTED_TYPE_FAULTS),
        of_changed_files(alloc),
        of_prefixes(alloc, &ONE_MODULE, &MODULE_PREFIXES),
        of_prefixes(alloc, &TWO_TYPES, &TWO_TYPE_PREFIXES),
        of_file_prefixes(alloc),
        count_built(alloc),
    ]
    .iter()
    .fold((0, 0), |sum, reported| both(sum, *reported))
}
