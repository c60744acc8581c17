//! Tests of `sig_recogniser`: which bytes are a signature, and the first type index that names no row, which `two_passes`
//! finds in another way.

mod bytes;
mod indexes;
mod two_passes;
