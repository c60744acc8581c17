//! Tests of `signatures` and `sig_encoder`.
//!
//! The tables of `blobs` were written by hand from ECMA-335 II.23.2 and II.23.1.16: every production, every
//! element type, and lists of three. Each blob is recognised, decoded, encoded, copied and compared.

pub mod blobs;
mod bodies;
mod canonical;
mod encodings;
pub mod values;
