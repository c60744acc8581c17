use crate::builder::{ALL_SORTED, RootBuilder};
use packed::put_unsigned;
use schema::TableId;
use std::alloc::{AllocError, Global};

/// A row of TypeDef by where its runs of fields and methods start.
pub fn type_row(fields: u8, methods: u8) -> [u8; 14] {
    [0, 0, 0, 0, 0, 0, 0, 0, 0, 0, fields, 0, methods, 0]
}

/// A row of Field: its blob is at 1, and encodes a four byte number.
pub const FIELD: &[u8] = b"\0\0\0\0\x01\0";

/// A root of three types, whose runs of fields start at these rows of two: the rows of TypeDef are at 92.
pub fn root_of_starts(alloc: Global, starts: [u8; 3]) -> Result<Vec<u8>, AllocError> {
    let mut root = RootBuilder::new(alloc);
    for start in starts {
        root.row(0x02, &type_row(start, 1))?;
    }
    root.row(0x04, FIELD)?;
    root.row(0x04, FIELD)?;
    root.heap("#Blob", b"\0\x02\x06\x08")?;
    root.finish()
}

/// A root of two methods and 65535 parameters, which start at row 1 and, by a null, after the last.
pub fn root_of_params(alloc: Global) -> Result<Vec<u8>, AllocError> {
    let mut root = RootBuilder::new(alloc);
    root.row(0x02, &type_row(1, 1))?;
    root.row(0x06, b"\0\0\0\0\0\0\0\0\0\0\x01\0\x01\0")?;
    root.row(0x06, b"\0\0\0\0\0\0\0\0\0\0\x01\0\0\0")?;
    for _ in 0..65535 {
        root.row(0x08, b"\0\0\0\0\0\0")?;
    }
    root.heap("#Blob", b"\0\x03\0\0\x01")?;
    root.finish()
}

/// A custom attribute of Assembly 1, whose constructor is MemberRef 1.
pub const OF_ASSEMBLY: &[u8] = b"\x2E\0\x0B\0\0\0";
/// A custom attribute of Module 1.
pub const OF_MODULE: &[u8] = b"\x27\0\x0B\0\0\0";

/// The Sorted bits without that of CustomAttribute.
pub const OTHERS_SORTED: u64 = ALL_SORTED - (1 << 0x0C);

/// A root of a module, an assembly and custom attributes, with these Sorted bits: the rows of
/// CustomAttribute are at 126.
pub fn root_of_attributes(
    alloc: Global,
    sorted: u64,
    attributes: &[&[u8]],
) -> Result<Vec<u8>, AllocError> {
    let mut root = RootBuilder::new(alloc);
    root.sorted = sorted;
    root.row(0x00, b"\0\0\0\0\0\0\0\0\0\0")?;
    root.row(0x01, b"\0\0\0\0\0\0")?;
    root.row(0x0A, b"\x09\0\0\0\x01\0")?;
    for attribute in attributes {
        root.row(0x0C, attribute)?;
    }
    root.row(0x20, b"\0\0\0\0\0\0\0\0\0\0\0\0\0\0\0\0\0\0\0\0\0\0")?;
    root.heap("#Blob", b"\0\x02\x06\x08")?;
    root.finish()
}

/// The root of one module with indexes of four bytes into all heaps: 152 bytes.
pub fn root_of_wide_indexes(alloc: Global) -> Result<Vec<u8>, AllocError> {
    let mut root = RootBuilder::new(alloc);
    root.heap_sizes = 7;
    root.row(0x00, b"\0\0\x01\0\0\0\x01\0\0\0\0\0\0\0\0\0\0\0")?;
    root.heap("#Strings", b"\0a.dll\0")?;
    root.heap(
        "#GUID",
        b"\0\x01\x02\x03\x04\x05\x06\x07\x08\x09\x0A\x0B\x0C\x0D\x0E\x0F",
    )?;
    root.finish()
}

/// A root of one exported type with this Implementation, which is at 84.
pub fn root_of_implementation(alloc: Global, implementation: u8) -> Result<Vec<u8>, AllocError> {
    let mut root = RootBuilder::new(alloc);
    root.row(
        0x27,
        &[0, 0, 0, 0, 0, 0, 0, 0, 0, 0, 0, 0, implementation, 0],
    )?;
    root.finish()
}

/// A root of 31096 bytes: 4000 rows of TypeRef, whose names begin at each of the first 4000 letters of one
/// text of 7000, which is `abc` and so on to `z`, again and again.
pub fn root_of_long_text(alloc: Global) -> Result<Vec<u8>, AllocError> {
    let mut root = RootBuilder::new(alloc);
    for index in 1..=4000u16 {
        let [low, high] = index.to_le_bytes();
        root.row(0x01, &[0, 0, low, high, 0, 0])?;
    }
    let mut heap = vec![in alloc; 0]?;
    for offset in 0..7000u32 {
        heap.push(b'a' + (offset % 26) as u8)?;
    }
    heap.push(0)?;
    root.heap("#Strings", heap.as_slice())?;
    root.finish()
}

/// A root of this number of rows of TypeRef and one of TypeSpec, which is at 98 after two of them: the class of
/// the first after a modifier of the second.
pub fn root_of_references(alloc: Global, references: u8) -> Result<Vec<u8>, AllocError> {
    let mut root = RootBuilder::new(alloc);
    for _ in 0..references {
        root.row(0x01, b"\0\0\0\0\0\0")?;
    }
    root.row(0x1B, b"\x01\0")?;
    root.heap("#Blob", b"\0\x04\x1F\x09\x12\x05")?;
    root.finish()
}

/// A heap with a signature of each kind: of a field at 1, a method at 4, a property at 8, a type at 12 and
/// of type arguments at 14.
const SIGNATURES: &[u8] = b"\0\x02\x06\x08\x03\0\0\x01\x03\x08\0\x08\x01\x08\x02\x0A\0";

/// That heap with one blob more, at 17.
fn heap_with(alloc: Global, blob: &[u8]) -> Result<Vec<u8>, AllocError> {
    let mut heap = Vec::from_slice(alloc, SIGNATURES)?;
    put_unsigned(&mut heap, blob.len().min(0xFFFF) as u32)?;
    heap.extend_from_slice(blob)?;
    Ok(heap)
}

/// The root of one row in each table with a signature column, of which one names the blob.
pub fn root_of_signature(
    alloc: Global,
    table: TableId,
    blob: &[u8],
) -> Result<Vec<u8>, AllocError> {
    let index = |of: TableId, valid: u8| if of == table { 17 } else { valid };
    let heap = heap_with(alloc, blob)?;
    let mut root = RootBuilder::new(alloc);
    root.row(0x01, b"\0\0\0\0\0\0")?;
    root.row(0x02, &type_row(1, 1))?;
    root.row(0x04, &[0, 0, 0, 0, index(TableId::Field, 1), 0])?;
    let method = index(TableId::MethodDef, 4);
    root.row(0x06, &[0, 0, 0, 0, 0, 0, 0, 0, 0, 0, method, 0, 1, 0])?;
    root.row(0x0A, &[9, 0, 0, 0, index(TableId::MemberRef, 1), 0])?;
    root.row(0x11, &[index(TableId::StandAloneSig, 1), 0])?;
    root.row(0x15, b"\x01\0\x01\0")?;
    root.row(0x17, &[0, 0, 0, 0, index(TableId::Property, 8), 0])?;
    root.row(0x1B, &[index(TableId::TypeSpec, 12), 0])?;
    root.row(0x2B, &[3, 0, index(TableId::MethodSpec, 14), 0])?;
    root.heap("#Blob", heap.as_slice())?;
    root.finish()
}
