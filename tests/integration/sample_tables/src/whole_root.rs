use sample_roots::RootBuilder;
use std::alloc::{AllocError, Global};

/// The rows of the whole tables, each with the number of its table, as their canonical root has them.
const ROWS: [(u8, &[u8]); 54] = [
    (0x00, b"\0\0\x01\0\x01\0\0\0\0\0"),
    (0x00, b"\xFF\xFF\0\0\0\0\0\0\0\0"),
    (0x00, b"\x01\0\x07\0\0\0\x02\0\x03\0"),
    (0x01, b"\x0E\0\x0A\0\x11\0"),
    (0x01, b"\0\0\x18\0\0\0"),
    (0x01, b"\x07\0\x20\0\0\0"),
    (0x02, b"\0\0\0\0\x26\0\0\0\0\0\x01\0\x01\0"),
    (0x02, b"\xFF\xFF\xFF\xFF\x2F\0\x31\0\x0D\0\x02\0\x02\0"),
    (0x02, b"\x02\0\0\0\x33\0\0\0\x0E\0\x03\0\x03\0"),
    (0x04, b"\x01\0\x35\0\x01\0"),
    (0x04, b"\x02\0\x54\0\x01\0"),
    (0x04, b"\x03\0\x37\0\x04\0"),
    (0x06, b"\x01\0\0\0\x02\0\x03\0\x39\0\x08\0\x01\0"),
    (0x06, b"\0\0\0\0\0\0\0\0\x31\0\x08\0\x02\0"),
    (0x06, b"\0\0\0\0\0\0\0\0\x3B\0\x08\0\x03\0"),
    (0x08, b"\0\0\x01\0\x3D\0"),
    (0x08, b"\0\0\x01\0\x3F\0"),
    (0x08, b"\0\0\x01\0\x41\0"),
    (0x09, b"\x01\0\x05\0"),
    (0x09, b"\x02\0\x0C\0"),
    (0x09, b"\x03\0\x0A\0"),
    (0x0A, b"\x09\0\x43\0\x01\0"),
    (0x0A, b"\x13\0\x45\0\x0C\0"),
    (0x0A, b"\x0C\0\x16\0\x08\0"),
    (0x0B, b"\x08\0\x04\0\x12\0"),
    (0x0B, b"\xFF\0\x05\0\0\0"),
    (0x0B, b"\0\0\x06\0\x17\0"),
    (0x11, b"\x19\0"),
    (0x11, b"\x08\0"),
    (0x11, b"\x01\0"),
    (0x12, b"\x01\0\x01\0"),
    (0x12, b"\x02\0\x02\0"),
    (0x12, b"\x03\0\x03\0"),
    (0x14, b"\0\0\x47\0\0\0"),
    (0x14, b"\0\0\x1E\0\x05\0"),
    (0x14, b"\0\0\x43\0\0\0"),
    (0x15, b"\x01\0\x01\0"),
    (0x15, b"\x02\0\x02\0"),
    (0x15, b"\x03\0\x03\0"),
    (0x17, b"\0\0\x49\0\x1D\0"),
    (0x17, b"\0\0\x4B\0\x1D\0"),
    (0x17, b"\0\0\x24\0\x1D\0"),
    (0x1B, b"\x21\0"),
    (0x1B, b"\x23\0"),
    (0x1B, b"\x26\0"),
    (0x23, b"\x04\0\0\0\0\0\0\0\x01\0\0\0\x29\0\x4D\0\0\0\0\0"),
    (
        0x23,
        b"\x04\0\0\0\0\0\0\0\xFF\xFF\xFF\xFF\0\0\x54\0\x56\0\0\0",
    ),
    (
        0x23,
        b"\x01\0\x02\0\x03\0\xFF\xFF\0\0\0\0\0\0\x37\0\0\0\x2B\0",
    ),
    (0x29, b"\x02\0\x01\0"),
    (0x29, b"\x03\0\x01\0"),
    (0x29, b"\x03\0\x02\0"),
    (0x2B, b"\x06\0\x2E\0"),
    (0x2B, b"\x07\0\x32\0"),
    (0x2B, b"\x02\0\x35\0"),
];

/// The texts that end no other, in the order in which cells name them first: `b` is the end of `mscorlib`,
/// `e` of `Nowhere`, `m` of `System` and `r` of `Inner`.
const TEXTS: &[u8] =
    b"\0a.dll\0\xC3\xA9\0Object\0System\0Nowhere\0Inner\0<Module>\0C\0N\0D\0a\0c\0M\0O\0x\0y\0z\0f\0v\0d\0p\0q\0mscorlib\0en\0";

/// The blobs, in the order in which cells name them first.
const BLOBS: &[u8] =
    b"\0\x02\x06\x08\x03\x06\x12\x0D\x03\0\0\x01\x05\x05\x01\x01\x41\x08\x04\0\0\0\0\x01\xFF\x03\x07\x01\x08\x03\x28\0\x08\x01\x08\x02\x12\x0E\x02\x1D\x0E\x01\x01\x02\x02\x03\x03\x0A\x01\x08\x02\x0A\0\x03\x0A\x01\x0E";

/// The canonical root of the whole tables: three rows of each of 18 tables.
pub fn root_of_whole_tables(alloc: Global) -> Result<Vec<u8>, AllocError> {
    let mut root = RootBuilder::new(alloc);
    for (table, row) in ROWS {
        root.row(table, row)?;
    }
    let mut guids = Vec::from_slice(alloc, [7; 16].as_slice())?;
    guids.extend_from_slice([0; 16].as_slice())?;
    guids.extend_from_slice([1; 16].as_slice())?;
    root.heap("#Strings", TEXTS)?;
    root.heap("#US", b"\0\x03A\0\0\0\0\0")?;
    root.heap("#GUID", guids.as_slice())?;
    root.heap("#Blob", BLOBS)?;
    root.finish()
}
