use sample_roots::RootBuilder;
use sample_tables::GUID;
use std::alloc::Global;
use std::test::Fail;

/// A root of 144 bytes, of one row of Module, which is at 108.
pub fn one_module(alloc: Global) -> Result<Vec<u8>, Fail> {
    let mut root = RootBuilder::new(alloc);
    root.row(0x00, b"\0\0\x01\0\x01\0\0\0\0\0")?;
    root.heap("#Strings", b"\0a.dll\0")?;
    root.heap("#GUID", &GUID)?;
    Ok(root.finish()?)
}

/// A root of two types, of which the second has two fields and a method: the rows of TypeDef are at 116
/// and 130.
pub fn two_types(alloc: Global) -> Result<Vec<u8>, Fail> {
    let mut root = RootBuilder::new(alloc);
    root.row(0x02, b"\0\0\0\0\x01\0\0\0\0\0\x01\0\x01\0")?;
    root.row(0x02, b"\x01\0\x10\0\x0A\0\x0C\0\0\0\x01\0\x01\0")?;
    root.row(0x04, b"\x01\0\x0E\0\x01\0")?;
    root.row(0x04, b"\x01\0\x10\0\x01\0")?;
    root.row(0x06, b"\0\0\0\0\0\0\x06\0\x12\0\x04\0\x01\0")?;
    root.heap("#Strings", b"\0<Module>\0C\0N\0a\0b\0M\0")?;
    root.heap("#Blob", b"\0\x02\x06\x08\x03\0\0\x01")?;
    Ok(root.finish()?)
}

/// Bytes of which one is changed.
pub fn changed(bytes: Vec<u8>, offset: usize, byte: u8) -> Vec<u8> {
    let mut bytes = bytes;
    if let Some(slot) = bytes.get_mut(offset) {
        *slot = byte;
    }
    bytes
}
