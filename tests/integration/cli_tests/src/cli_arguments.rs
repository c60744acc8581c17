//! Tests of `cli_arguments`: arguments, usage errors, help, and the examples in help.

mod examples;
mod words;
