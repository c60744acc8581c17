use clap::Error;
use cli::ask;
use std::alloc::Global;

/// The file that the arguments name, the program's name first; `None` for a subcommand that reads none.
pub fn file_named<'a>(alloc: Global, words: &'a [&'a str]) -> Result<Option<&'a str>, Error> {
    let asked = ask(alloc, words)?;
    Ok(asked.file)
}
