//! Tests of copies of a file with another root, on samples too.

use clim::rows::TypeDef;
use clim::{embed, embed_canonical, read_header, Cell, Difference, EmbedError, Signature, StrongName, Table, Tables, Token, View};
use std::fs;

/// The second type, and the column of its name.
const TYPE: Token = Token { table: Table::TypeDef, row: 2 };
const TYPE_NAME: usize = 1;

/// The offsets of Flags and of StrongNameSignature in the CLI header (II.25.3.3), and the flag of a strong name.
const FLAGS: usize = 16;
const STRONG_NAME_SIGNATURE: usize = 32;
const STRONG_NAME: u8 = 8;

/// The bytes of a sample.
fn sample(name: &str) -> Vec<u8> {
    fs::read(format!("{}/../../samples/{name}", env!("CARGO_MANIFEST_DIR"))).expect("a sample")
}

/// A root of the rows of a file, after a change of them.
fn changed(file: &[u8], change: impl FnOnce(&mut Tables)) -> Vec<u8> {
    let mut tables = Tables::of(&View::open(file).expect("a file"));
    change(&mut tables);
    tables.root().expect("valid tables")
}

#[test]
fn a_type_is_renamed() {
    let file = sample("members.dll");
    let view = View::open(&file).expect("a file");
    for name in ["B", &"Renamed".repeat(300)] {
        let root = changed(&file, |tables| assert!(tables.set(TYPE, TYPE_NAME, Cell::Text(name))));
        let copy = embed(&file, &root, StrongName::Keep).expect("a copy");
        let copied = View::open(&copy).expect("a file");
        assert_eq!(copied.row::<TypeDef>(2).expect("a row").type_name, name);
        assert!(copied.canonical_root().as_ref() == Ok(&root));
        assert_eq!(view.difference(&copied), Ok(Some(Difference::Cell { row: TYPE, column: TYPE_NAME })));
    }
}

#[test]
fn the_canonical_root() {
    for name in ["members.dll", "shapes.dll", "one_module.dll"] {
        let file = sample(name);
        let view = View::open(&file).expect("a file");
        let copy = embed_canonical(&file, StrongName::Keep).expect("a copy");
        assert!(embed(&file, &view.canonical_root().expect("a root"), StrongName::Keep).as_ref() == Ok(&copy));
        let copied = View::open(&copy).expect("a file");
        assert_eq!(view.difference(&copied), Ok(None));
        assert!(embed_canonical(&copy, StrongName::Keep).as_ref() == Ok(&copy));
    }
}

#[test]
fn the_strong_name() {
    let mut file = sample("members.dll");
    let header = read_header(&file).expect("a header");
    file[header.offset + FLAGS] |= STRONG_NAME;
    file[header.offset + STRONG_NAME_SIGNATURE + 4] = 4;
    let of_copy = |strong_name| read_header(&embed_canonical(&file, strong_name).expect("a copy")).expect("a header");
    let (kept, cleared) = (of_copy(StrongName::Keep), of_copy(StrongName::Clear));
    assert_eq!((kept.flags, kept.strong_name_signature.size), (header.flags | u32::from(STRONG_NAME), 4));
    assert_eq!((cleared.flags, cleared.strong_name_signature.size), (header.flags, 0));
}

#[test]
fn what_makes_no_copy() {
    let file = sample("members.dll");
    let root = View::open(&file).expect("a file").canonical_root().expect("a root");
    let why = |file: &[u8], root: &[u8]| embed(file, root, StrongName::Clear).expect_err("no copy");
    assert!(matches!(why(b"", &root), EmbedError::File(fault) if fault.code == 102));
    assert!(matches!(why(&file, b""), EmbedError::Root(fault) if fault.code == 301));
    let fault = clim::check_root(&root[..root.len() / 2]).expect_err("a fault");
    assert_eq!(why(&file, &root[..root.len() / 2]), EmbedError::Root(fault));
    assert_eq!(EmbedError::Root(fault).to_string(), format!("the root: {fault}"));
    let method = Token { table: Table::MethodDef, row: 1 };
    let other = changed(&file, |tables| assert!(tables.set(method, 0, Cell::Number(1))));
    assert_eq!(why(&file, &other), EmbedError::Unlike);
    let more = changed(&file, |tables| {
        let cells = [0, 0, 0].map(Cell::Number);
        let next = Cell::Start(tables.next_row(Table::Param));
        tables.push(Table::MethodDef, &[&cells[..], &[Cell::Text("added"), Cell::Signature(Signature(b"\0\0\x01")), next]].concat());
    });
    assert_eq!(why(&file, &more), EmbedError::Unlike);
    let strings = changed(&file, |tables| tables.set_user(b"\0\x03a\0\0"));
    assert_eq!(why(&file, &strings), EmbedError::Unlike);
}
