//! Metadata roots and a file for tests (ECMA-335 II.24.2 and II.25), byte by byte or laid out from rows.
//!
//! [`ONE_MODULE`], [`TWO_TYPES`], [`THREE_TYPES`], [`NO_ROWS`], [`image`] and [`wider_image`] are small and do not allocate.
//! The lists of [`FirstFault`] say by which changes of these each rule of ECMA-335 Partition II (22 to
//! 25) is the first to break, and those of [`PrefixFault`] what their prefixes are refused with.
//! [`RootBuilder`] lays out a root from rows and heaps, and the functions `root_of_..` lay out those that
//! several crates ask about. [`fault_of`] is what tests compare of a fault.

mod builder;
mod changes;
mod faults;
mod first_faults;
mod samples;
mod small_roots;

pub use builder::{ALL_SORTED, RootBuilder};
pub use changes::{change, changed, write_at};
pub use faults::fault_of;
pub use first_faults::{
    FILE_FAULTS, FILE_PREFIXES, FirstFault, PrefixFault, MODULE_FAULTS, MODULE_PREFIXES,
    NESTED_TYPE_FAULTS, TWO_TYPE_FAULTS, TWO_TYPE_PREFIXES,
};
pub use samples::{
    NAMES_APART, NAMES_SHARED, NO_ROWS, ONE_MODULE, THREE_TYPES, TWO_TYPES, image, wider_image,
};
pub use small_roots::{
    FIELD, OF_ASSEMBLY, OF_MODULE, OTHERS_SORTED, root_of_attributes, root_of_implementation,
    root_of_long_text, root_of_params, root_of_references, root_of_signature, root_of_starts,
    root_of_wide_indexes, type_row,
};
