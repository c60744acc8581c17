//! Tests of `packed`: numbers and faults.

mod faults;
mod numbers;
