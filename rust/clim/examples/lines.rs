//! Prints what clim prints, from Rust. c/run compares both.
//!
//!     lines show FILE [bare]      prints the tables as clim show does, each signature as its blob
//!     lines texts FILE [bare]     the same, but each signature as its text
//!     lines vary FILE [bare]      prints what clim check prints for each prefix of the file, and for the file with one
//!                                 byte set to 00 or FF, one line each
//!     lines rewrite FILE OUT [bare]
//!                                 writes the canonical root to OUT, as clim rewrite does, and prints its digest
//!     lines build FILE OUT [bare]
//!                                 the same, but the root is that of tables with the rows of the file

use clim::{check, check_root, Cell, Fault, Signature, Table, Tables, Token, View};
use std::error::Error;
use std::io::{stdout, BufWriter, Write};
use std::{env, fs, io};

/// Opens a file, or a bare root.
fn open(data: &[u8], bare: bool) -> Result<View<'_>, Fault> {
    if bare {
        View::open_root(data)
    } else {
        View::open(data)
    }
}

/// Writes a line for one input.
fn write_answer(out: &mut impl Write, data: &[u8], bare: bool) -> io::Result<()> {
    let checked = if bare { check_root(data) } else { check(data) };
    match (checked, open(data, bare).map(|_| ())) {
        (checked, opened) if checked != opened => writeln!(out, "check and open differ"),
        (Ok(()), _) => writeln!(out, "ok"),
        (Err(fault), _) => writeln!(out, "{fault}"),
    }
}

/// Writes a line for each input that is made from a file.
fn vary(out: &mut impl Write, data: &mut [u8], bare: bool) -> io::Result<()> {
    for len in 0..=data.len() {
        write_answer(out, &data[..len], bare)?;
    }
    for offset in 0..data.len() {
        let kept = data[offset];
        for byte in [0x00, 0xFF] {
            data[offset] = byte;
            write_answer(out, data, bare)?;
        }
        data[offset] = kept;
    }
    Ok(())
}

/// Writes a cell as clim show does.
fn write_cell(out: &mut impl Write, cell: Cell) -> io::Result<()> {
    match cell {
        Cell::Number(number) => write!(out, " {number}"),
        Cell::Start(number) => write!(out, " +{number}"),
        Cell::Guid(Some(guid)) => write!(out, " {{{guid}}}"),
        Cell::Row(Some(token)) => write!(out, " {token}"),
        Cell::Guid(None) | Cell::Row(None) => write!(out, " null"),
        Cell::Blob(bytes) | Cell::Signature(Signature(bytes)) => {
            write!(out, " <")?;
            bytes.iter().try_for_each(|byte| write!(out, "{byte:02x}"))?;
            write!(out, ">")
        }
        Cell::Text(text) => {
            write!(out, " \"")?;
            text.bytes().try_for_each(|byte| match byte {
                b'"' | b'\\' => write!(out, "\\x{byte:02x}"),
                b' '..=b'~' => write!(out, "{}", char::from(byte)),
                _ => write!(out, "\\x{byte:02x}"),
            })?;
            write!(out, "\"")
        }
    }
}

/// Writes a cell of a row as clim show does, but a signature as its text.
fn write_text(out: &mut impl Write, view: &View, row: Token, cell: Cell) -> io::Result<()> {
    match (cell, view.signature_text(row)) {
        (Cell::Signature(_), Ok(Some(text))) => write!(out, " <{text}>"),
        (cell, _) => write_cell(out, cell),
    }
}

/// Writes all tables as clim show does, with cells as `write` writes them.
fn show<W: Write>(
    out: &mut W,
    view: &View,
    write: impl Fn(&mut W, &View, Token, Cell) -> io::Result<()>,
) -> io::Result<()> {
    for table in Table::ALL.into_iter().filter(|&it| view.count(it) > 0) {
        writeln!(out, "table {:02X} {table} {}", table.number(), view.count(table))?;
        let mut columns: Vec<_> = (0..table.columns().count()).map(|it| view.column(table, it)).collect();
        for row in 1..=view.count(table) {
            write!(out, "{row}:")?;
            for cell in columns.iter_mut().filter_map(Iterator::next) {
                write(out, view, Token { table, row }, cell)?;
            }
            writeln!(out)?;
        }
    }
    Ok(())
}

/// Writes a root to a file, and the digest of the view as hexadecimal digits.
fn write_root(out: &mut impl Write, view: &View, root: &[u8], path: &str) -> Result<(), Box<dyn Error>> {
    fs::write(path, root)?;
    view.digest()?.iter().try_for_each(|byte| write!(out, "{byte:02x}"))?;
    Ok(writeln!(out)?)
}

fn main() -> Result<(), Box<dyn Error>> {
    let arguments: Vec<_> = env::args().collect();
    let [_, what, path, others @ ..] = &arguments[..] else {
        return Err("lines show|texts|vary|rewrite|build FILE [OUT] [bare]".into());
    };
    let bare = others.last().is_some_and(|it| it == "bare");
    let (mut data, mut out) = (fs::read(path)?, BufWriter::new(stdout().lock()));
    match what.as_str() {
        "vary" => vary(&mut out, &mut data, bare)?,
        "rewrite" => {
            let view = open(&data, bare)?;
            write_root(&mut out, &view, &view.canonical_root()?, &others[0])?;
        }
        "build" => {
            let view = open(&data, bare)?;
            write_root(&mut out, &view, &Tables::of(&view).root()?, &others[0])?;
        }
        "texts" => show(&mut out, &open(&data, bare)?, write_text)?,
        _ => show(&mut out, &open(&data, bare)?, |out, _, _, cell| write_cell(out, cell))?,
    }
    Ok(())
}
