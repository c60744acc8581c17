//! Tests of `sig_text`: the text of a signature of each form, in the notation of ILAsm (ECMA-335 II.7.1,
//! II.14.2, II.15.3), and a sink that refuses each word in turn.

mod forms;
mod names;
mod refused;
