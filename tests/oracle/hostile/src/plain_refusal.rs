//! What is wrong with tables, by the rules of a valid model, plainly. It shares no code with the library.

use crate::plain_links::{At, bad_link};
use crate::plain_model::{PlainCell, PlainModel};
use crate::plain_reader::encoded_again;
use crate::plain_root::Refused;
use crate::plain_signatures::reencoded;
use crate::standard::{CONSTANT, Counts, Kind, TABLES, Table, columns, listed};
use model::{Coded, SigKind};
use std::alloc::Global;

/// A rule that tables break, and the cell that breaks it.
#[derive(Clone, Copy, Debug, PartialEq, Eq)]
pub struct PlainRefusal {
    pub code: u16,
    pub table: Table,
    pub row: u32,
    pub column: usize,
}

/// The first rule that is broken, if any.
pub fn refusal_of(alloc: Global, model: &PlainModel) -> Option<PlainRefusal> {
    let at_cell = |(code, table, row, column)| PlainRefusal {
        code,
        table,
        row,
        column,
    };
    if model.version.len() > 254 || model.version.contains(&0) {
        return Some(at_cell((302, 0, 0, 0)));
    }
    if model.user.len() % 4 != 0 {
        return Some(at_cell((510, 0, 0, 0)));
    }
    let counts = model.counts();
    bad_cell(model, &counts)
        .or_else(|| bad_link(model))
        .or_else(|| bad_signature(alloc, model, &counts))
        .map(at_cell)
}

/// The kinds of a table's cells.
fn cell_kinds(table: Table) -> &'static [Kind] {
    match table {
        // Its padding is no cell.
        CONSTANT => &[Kind::Number(1), Kind::Coded(Coded::HasConstant), Kind::Blob],
        _ => columns(table),
    }
}

/// The first cell that is none of its column, or names what is not there.
fn bad_cell(model: &PlainModel, counts: &Counts) -> Option<At> {
    for table in TABLES {
        for (offset, cells) in model.rows(table).iter().enumerate() {
            let row = offset as u32 + 1;
            if cells.len() != cell_kinds(table).len() {
                return Some((509, table, row, 0));
            }
            for (column, (cell, kind)) in cells.iter().zip(cell_kinds(table)).enumerate() {
                if let Some(code) = wrong_with(cell, *kind, counts) {
                    return Some((code, table, row, column));
                }
            }
        }
    }
    None
}

/// What is wrong with a cell in a column, if anything.
fn wrong_with(cell: &PlainCell, kind: Kind, counts: &Counts) -> Option<u16> {
    match (cell, kind) {
        (PlainCell::Number(_), Kind::Number(4)) => None,
        (PlainCell::Number(number), Kind::Number(width)) if *number >> (8 * width) == 0 => None,
        (PlainCell::Text(text), Kind::Text) if !text.contains(&0) => None,
        (PlainCell::Bytes(_), Kind::Blob) => None,
        (PlainCell::Guid(_), Kind::Guid) => None,
        (PlainCell::Signature(_, _), Kind::Signature(_)) => None,
        (PlainCell::Start(start), Kind::List(members)) => {
            let most = counts[members as usize] + 1;
            if *start > most { Some(507) } else { None }
        }
        (PlainCell::Row(None), Kind::CodedOrNull(_)) => None,
        (PlainCell::Row(None), Kind::Row(_) | Kind::Coded(_)) => Some(506),
        (PlainCell::Row(Some((table, row))), _) if may_name(kind, *table) => {
            let is_there = *row > 0 && *row <= counts[*table as usize];
            if is_there { None } else { Some(506) }
        }
        _ => Some(509),
    }
}

/// Whether a column may name rows of a table.
fn may_name(kind: Kind, table: Table) -> bool {
    let lists = |coded: Coded| listed(coded).contains(&Some(table));
    match kind {
        Kind::Row(only) => only == table,
        Kind::Coded(coded) | Kind::CodedOrNull(coded) => lists(coded),
        _ => false,
    }
}

/// The first signature that its column does not take, or that names a type that is not there.
fn bad_signature(alloc: Global, model: &PlainModel, counts: &Counts) -> Option<At> {
    for table in TABLES {
        for (offset, cells) in model.rows(table).iter().enumerate() {
            for (column, (cell, kind)) in cells.iter().zip(cell_kinds(table)).enumerate() {
                let (PlainCell::Signature(made, bytes), Kind::Signature(kind)) = (cell, kind) else {
                    continue;
                };
                let row = offset as u32 + 1;
                if !is_taken(alloc, bytes.as_slice(), *made, *kind) {
                    return Some((701, table, row, column));
                }
                if let Err(Refused::Fault(code, _)) = encoded_again(
                    alloc,
                    bytes.as_slice(),
                    *made,
                    counts,
                ) {
                    return Some((code, table, row, column));
                }
            }
        }
    }
    None
}

/// What a signature is of.
#[derive(Clone, Copy, PartialEq, Eq)]
enum Body {
    Field,
    Method,
    Locals,
    Other(SigKind),
}

/// What a signature is of that was made for a kind of column.
fn body_of(bytes: &[u8], made: SigKind) -> Body {
    match (made, bytes.first()) {
        (SigKind::Field, _) => Body::Field,
        (SigKind::MethodDef, _) => Body::Method,
        (SigKind::MemberRef | SigKind::StandAlone, Some(6)) => Body::Field,
        (SigKind::StandAlone, Some(7)) => Body::Locals,
        (SigKind::MemberRef | SigKind::StandAlone, _) => Body::Method,
        _ => Body::Other(made),
    }
}

/// Whether a column takes a signature that was made for another.
fn is_taken(alloc: Global, bytes: &[u8], made: SigKind, kind: SigKind) -> bool {
    let body = body_of(bytes, made);
    match kind {
        SigKind::Field => body == Body::Field,
        SigKind::MethodDef => {
            body == Body::Method && reencoded(alloc, bytes, SigKind::MethodDef, None).is_ok()
        }
        SigKind::MemberRef => matches!(body, Body::Field | Body::Method),
        SigKind::StandAlone => matches!(body, Body::Field | Body::Method | Body::Locals),
        _ => body == Body::Other(kind),
    }
}
