//! Tests of `sig_items`: the items of a signature of each form, by ECMA-335 II.23.2, of types that nest as deep
//! as they may, and no item of bytes that are no signature.

mod bodies;
mod collected;
mod cores;
mod edges;
