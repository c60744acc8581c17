use crate::built_root::BuiltRoot;
use crate::reported::{Reported, both, counted, is_refused};
use owned_model::{Model, Tables, load_root};
use opening::{TableId, Token, open_image, open_root};
use sample_roots::{NAMES_APART, NAMES_SHARED, OF_ASSEMBLY, OF_MODULE, ONE_MODULE, TWO_TYPES, image};
use std::alloc::Global;

/// A row of a table with this number.
type TableRow<'a> = (u8, &'a [u8]);

const MODULE: TableRow = (0x00, &[0; 10]);
const TYPE_REF: TableRow = (0x01, &[0; 6]);
/// Its fields and its methods start at 1.
const TYPE_DEF: TableRow = (0x02, b"\0\0\0\0\0\0\0\0\0\0\x01\0\x01\0");
const FIELD: TableRow = (0x04, b"\0\0\0\0\x01\0");
const METHOD_DEF: TableRow = (0x06, b"\0\0\0\0\0\0\0\0\0\0\x01\0\x01\0");
/// Of TypeRef 1.
const MEMBER_REF: TableRow = (0x0A, b"\x09\0\0\0\x01\0");
const TYPE_SPEC: TableRow = (0x1B, b"\x01\0");
const ASSEMBLY: TableRow = (0x20, &[0; 22]);

/// The blob of a field that is a number of four bytes.
const NUMBER_FIELD: &[u8] = b"\0\x02\x06\x08";

/// The blob of 128 vectors in one another: its length in two bytes, 128 times SZARRAY, and the type of the elements.
fn nested_vectors() -> [u8; 132] {
    let mut blob = [0x1D; 132];
    blob[0] = 0;
    blob[1] = 0x80;
    blob[2] = 0x81;
    blob[131] = 0x08;
    blob
}

/// Whether opening and loading refuse a root with this fault.
fn is_faulty(alloc: Global, rows: &[TableRow], blobs: &[u8], code: u16, offset: u64) -> bool {
    let root = BuiltRoot::new(rows, blobs);
    let is_opened_so = match open_root(root.bytes()) {
        Ok(_) => false,
        Err(fault) => (fault.code, fault.offset) == (code, offset),
    };
    is_opened_so && is_refused(load_root(alloc, root.bytes()), code, offset)
}

/// Rows of three types with these starts of their fields, and of two fields. The first is at 92.
fn has_runs_fault(alloc: Global, starts: [u8; 3], code: u16, offset: u64) -> bool {
    let row = |start: u8| [0, 0, 0, 0, 0, 0, 0, 0, 0, 0, start, 0, 1, 0];
    let [first, second, third] = [row(starts[0]), row(starts[1]), row(starts[2])];
    let rows: [TableRow; 5] = [
        (0x02, &first),
        (0x02, &second),
        (0x02, &third),
        FIELD,
        FIELD,
    ];
    is_faulty(alloc, &rows, NUMBER_FIELD, code, offset)
}

/// Rules of runs, keys and indexes (II.22).
fn of_rows(alloc: Global) -> Reported {
    let keys: [TableRow; 7] = [
        MODULE,
        TYPE_REF,
        MEMBER_REF,
        (0x0C, OF_ASSEMBLY),
        (0x0C, OF_ASSEMBLY),
        (0x0C, OF_MODULE),
        ASSEMBLY,
    ];
    // The enclosing type is one past the types; the blob of the field has a byte too many, but signatures come later.
    let enclosing: [TableRow; 3] = [TYPE_DEF, FIELD, (0x29, b"\x01\0\x02\0")];
    let null_class: [TableRow; 1] = [(0x0A, b"\0\0\0\0\x01\0")];
    [
        has_runs_fault(alloc, [2, 3, 3], 602, 102),
        has_runs_fault(alloc, [1, 4, 3], 507, 116),
        is_faulty(alloc, &keys, NUMBER_FIELD, 601, 138),
        is_faulty(alloc, &enclosing, b"\0\x03\x06\x08\0", 506, 118),
        is_faulty(alloc, &null_class, NUMBER_FIELD, 506, 88),
    ]
    .iter()
    .fold((0, 0), |reported, is_right| counted(reported, *is_right))
}

/// Rules of signatures (II.23.2).
fn of_signatures(alloc: Global) -> Reported {
    let field: [TableRow; 2] = [TYPE_DEF, FIELD];
    let method: [TableRow; 2] = [TYPE_DEF, METHOD_DEF];
    let member: [TableRow; 2] = [TYPE_REF, MEMBER_REF];
    let references: [TableRow; 2] = [TYPE_REF, TYPE_SPEC];
    [
        // A byte too many, and one too few.
        is_faulty(alloc, &field, b"\0\x03\x06\x08\0", 701, 110),
        is_faulty(alloc, &field, b"\0\x01\x06", 701, 110),
        // A modifier whose type is TypeRef 2, which does not exist.
        is_faulty(alloc, &references, b"\0\x04\x1F\x09\x12\x05", 702, 98),
        // SENTINEL in the definition of a method, and after the last parameter.
        is_faulty(alloc, &method, b"\0\x05\x05\x01\x01\x41\x08", 701, 116),
        is_faulty(alloc, &method, b"\0\x05\x05\x01\x01\x08\x41", 701, 116),
        is_faulty(alloc, &member, b"\0\x05\x05\x01\x01\x08\x41", 701, 102),
        is_faulty(alloc, &[TYPE_SPEC], &nested_vectors(), 701, 88),
    ]
    .iter()
    .fold((0, 0), |reported, is_right| counted(reported, *is_right))
}

/// Whether the rows with a key are these, and at most `reads` keys were read to find them.
fn has_key_rows(table: TableId, rows: &[u32], reads: u64) -> bool {
    let keys: [TableRow; 7] = [
        MODULE,
        TYPE_REF,
        MEMBER_REF,
        (0x0C, OF_MODULE),
        (0x0C, OF_ASSEMBLY),
        (0x0C, OF_ASSEMBLY),
        ASSEMBLY,
    ];
    let root = BuiltRoot::new(&keys, NUMBER_FIELD);
    match open_root(root.bytes()) {
        Ok(view) => {
            let found = view.by_key(TableId::CustomAttribute, Token { table, row: 1 });
            found.reads() <= reads && found.eq(rows.iter().copied())
        }
        Err(_) => false,
    }
}

/// Whether tables of the empty version and without rows are a model. Making them does not allocate.
fn is_model_without_rows(alloc: Global) -> bool {
    match Tables::new(alloc, "") {
        Ok(tables) => Model::from_tables(tables).is_ok(),
        Err(_) => false,
    }
}

/// What is opened, looked up by key, or made a model.
fn of_opened(alloc: Global) -> Reported {
    [
        is_model_without_rows(alloc),
        has_key_rows(TableId::Assembly, &[2, 3], 6),
        has_key_rows(TableId::Module, &[1], 6),
        has_key_rows(TableId::File, &[], 6),
        open_root(&ONE_MODULE).is_ok(),
        open_root(&TWO_TYPES).is_ok(),
        open_root(&NAMES_APART).is_ok(),
        open_root(&NAMES_SHARED).is_ok(),
        open_image(&image()).is_ok(),
    ]
    .iter()
    .fold((0, 0), |reported, is_right| counted(reported, *is_right))
}

/// Opens and loads the built roots, opens the samples, and makes a model of tables without rows.
pub fn count_built(alloc: Global) -> Reported {
    both(both(of_rows(alloc), of_signatures(alloc)), of_opened(alloc))
}
