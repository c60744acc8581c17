//! Tests of `root`: a metadata root, each of its rules, and both sides of each limit.

use packed::Fault;
use root::{Kind, read_root};
use sample_roots::{ONE_MODULE, fault_of};
use std::alloc::Global;
use std::test::Fail;

/// What reading the first `len` bytes of the sample returns.
fn fault_of_prefix(len: usize) -> Option<Fault> {
    let (code, offset) = match len {
        0..=15 => (301, 0),
        16..=27 => (302, 12),
        28..=31 => (303, 28),
        32..=43 => (304, 32),
        44..=119 => (305, 32),
        120..=127 => (305, 44),
        128..=143 => (305, 64),
        _ => return None,
    };
    Some(Fault {
        layer: 3,
        code,
        offset,
    })
}

#[test]
fn reads_each_prefix(rt: HostRuntime) {
    for len in 0..=ONE_MODULE.len() {
        assert!(rt; len <= ONE_MODULE.len());
        assert_eq!(rt;
            read_root(&ONE_MODULE[..len]).err(),
            fault_of_prefix(len),
            "of {len} bytes"
        );
    }
}

#[test]
fn shows_the_sample(rt: HostRuntime) -> Result<(), Fail> {
    let root = read_root(&ONE_MODULE)?;
    assert_eq!(rt; root.version(), "v4.0.30319");
    let mut names = String::new(rt.alloc());
    for header in root.headers() {
        let (at, offset, size, name) = (header.place, header.offset, header.size, header.name);
        write!(names, "{at} {offset} {size} {name};")?;
    }
    assert_eq!(rt;
        names.as_str(),
        "32 80 40 #~;44 120 8 #Strings;64 128 16 #GUID;"
    );
    assert_eq!(rt;
        root.stream(Kind::Strings).ok_or("no strings")?,
        &ONE_MODULE[120..128]
    );
    assert_eq!(rt; root.stream_place(Kind::Guids).ok_or("no guids")?, 128..144);
    assert!(rt; root.stream(Kind::Blobs).is_none());
    assert!(rt; root.stream_place(Kind::UserStrings).is_none());
    Ok(())
}

/// The fault of the sample with some bytes changed.
fn fault_with(changes: &[(usize, u8)]) -> Option<(u16, u64)> {
    let mut bytes = ONE_MODULE;
    for (offset, byte) in changes {
        if *offset < 144 {
            bytes[*offset] = *byte;
        }
    }
    fault_of(read_root(&bytes).err())
}

#[test]
fn names_the_first_rule(rt: HostRuntime) {
    for (changes, fault) in [
        // Another signature, a Length that is no multiple of four, one of 0, one past the end.
        ([(3, 0x43), (3, 0x43)], Some((301, 0))),
        ([(12, 11), (12, 11)], Some((302, 12))),
        ([(12, 0), (12, 0)], Some((302, 12))),
        ([(12, 132), (12, 132)], Some((302, 12))),
        ([(12, 0xFF), (12, 0xFF)], Some((302, 12))),
        // A version without a NUL, and one that is not UTF-8.
        ([(26, 1), (27, 1)], Some((302, 12))),
        ([(20, 0xFF), (20, 0xFF)], Some((302, 12))),
        // What follows the first NUL is not read.
        ([(27, 0xFF), (27, 0xFF)], None),
        // 255 headers: the bytes from 80 on are read as four that are ignored, and none is at 128.
        ([(30, 0xFF), (30, 0xFF)], Some((304, 128))),
        // A name that is not ASCII, and a third header that names the tables again.
        ([(53, 0x80), (53, 0x80)], Some((304, 44))),
        ([(73, 0x7E), (74, 0)], Some((306, 64))),
        // A stream that ends one byte after the root, and one of another name that does.
        ([(68, 17), (68, 17)], Some((305, 64))),
        ([(68, 17), (73, 0x48)], None),
        // The name `#-`, which comes before the missing tables, and the tables under another name.
        ([(41, 0x2D), (41, 0x2D)], Some((307, 32))),
        ([(41, 0x7F), (41, 0x7F)], Some((308, 30))),
        // One header fewer, and none.
        ([(30, 2), (30, 2)], None),
        ([(30, 0), (30, 0)], Some((308, 30))),
    ] {
        let (at, byte) = changes[0];
        assert_eq!(rt;
            fault_with(changes.as_slice()),
            fault,
            "with {byte} at {at}"
        );
    }
}

/// A root of the tables stream alone, of no bytes, with this field of a version and then other headers.
fn root_of(alloc: Global, field: &[u8], headers: &[&[u8]]) -> Result<Vec<u8>, Fail> {
    let mut bytes = Vec::from_slice(alloc, b"BSJB\x01\0\x01\0\0\0\0\0".as_slice())?;
    let length = u32::try_from(field.len())?;
    bytes.extend_from_slice(length.to_le_bytes().as_slice())?;
    bytes.extend_from_slice(field)?;
    bytes.extend_from_slice([0, 0].as_slice())?;
    let count = u8::try_from(headers.len())?;
    bytes.extend_from_slice([count.saturating_add(1), 0].as_slice())?;
    bytes.extend_from_slice(b"\0\0\0\0\0\0\0\0#~\0\0".as_slice())?;
    for header in headers {
        bytes.extend_from_slice(b"\x10\0\0\0\xFF\0\0\0".as_slice())?;
        bytes.extend_from_slice(header)?;
    }
    Ok(bytes)
}

#[test]
fn reads_versions_to_their_nul(rt: HostRuntime) -> Result<(), Fail> {
    let alloc = rt.alloc();
    for (letters, zeros, fault) in [
        (0, 4, None),
        (3, 1, None),
        (1, 255, None),
        (254, 2, None),
        (255, 1, Some((302, 12))),
        (256, 0, Some((302, 12))),
        (300, 4, Some((302, 12))),
        (3, 2, Some((302, 12))),
    ] {
        let mut field = vec![in alloc; b'v'; letters]?;
        field.extend_from_slice(vec![in alloc; 0; zeros]?.as_slice())?;
        let bytes = root_of(alloc, field.as_slice(), &[])?;
        let found = fault_of(read_root(bytes.as_slice()).err());
        assert_eq!(rt; found, fault, "of {letters} letters");
        if let Ok(root) = read_root(bytes.as_slice()) {
            assert_eq!(rt; root.version().len(), letters);
        }
    }
    let bytes = root_of(alloc, b"v4\0\xFFv4\0\0".as_slice(), &[])?;
    assert_eq!(rt; read_root(bytes.as_slice())?.version(), "v4");
    let bytes = root_of(alloc, "\u{e9}\u{20ac}\0\0\0".as_bytes(), &[])?;
    assert_eq!(rt; read_root(bytes.as_slice())?.version(), "\u{e9}\u{20ac}");
    Ok(())
}

#[test]
fn lists_headers_of_other_names(rt: HostRuntime) -> Result<(), Fail> {
    let alloc = rt.alloc();
    // No name, one of 32 characters, the same one again, and one whose fill is not zero.
    let long = b"abcdefghijklmnopqrstuvwxyz012345\0\0\0\0".as_slice();
    let headers = [b"\0\0\0\0".as_slice(), long, long, b"ab\0\xFF".as_slice()];
    let bytes = root_of(alloc, b"v\0\0\0".as_slice(), headers.as_slice())?;
    let mut names = String::new(alloc);
    for header in read_root(bytes.as_slice())?.headers() {
        let (at, offset, size, name) = (header.place, header.offset, header.size, header.name);
        write!(names, "{at} {offset} {size} {name};")?;
    }
    let expected =
        "24 0 0 #~;36 16 255 ;48 16 255 abcdefghijklmnopqrstuvwxyz012345;92 16 255 abcdefghijklmnopqrstuvwxyz012345;136 16 255 ab;";
    assert_eq!(rt; names.as_str(), expected);
    // A name of 33 characters, and a header whose fill the root cuts off.
    let longer = b"abcdefghijklmnopqrstuvwxyz0123456\0\0\0".as_slice();
    let bytes = root_of(alloc, b"v\0\0\0".as_slice(), &[longer])?;
    let found = fault_of(read_root(bytes.as_slice()).err());
    assert_eq!(rt; found, Some((304, 36)));
    let bytes = root_of(alloc, b"v\0\0\0".as_slice(), &[b"ab\0".as_slice()])?;
    let found = fault_of(read_root(bytes.as_slice()).err());
    assert_eq!(rt; found, Some((304, 36)));
    Ok(())
}

#[test]
fn reads_the_root_of_no_rows(rt: HostRuntime) -> Result<(), Fail> {
    let bytes = [
        0x42, 0x53, 0x4A, 0x42, 0x01, 0x00, 0x01, 0x00, 0x00, 0x00, 0x00, 0x00, 0x04, 0x00, 0x00,
        0x00, 0x00, 0x00, 0x00, 0x00, 0x00, 0x00, 0x01, 0x00, 0x24, 0x00, 0x00, 0x00, 0x18, 0x00,
        0x00, 0x00, 0x23, 0x7E, 0x00, 0x00, 0x00, 0x00, 0x00, 0x00, 0x02, 0x00, 0x00, 0x01, 0x00,
        0x00, 0x00, 0x00, 0x00, 0x00, 0x00, 0x00, 0x00, 0xFA, 0x01, 0x33, 0x00, 0x16, 0x00, 0x00,
    ];
    let root = read_root(&bytes)?;
    assert_eq!(rt; root.version(), "");
    assert_eq!(rt; root.stream_place(Kind::Tables), Some(36..60));
    Ok(())
}

#[test]
fn a_clone_is_the_same_root(rt: HostRuntime) -> Result<(), Fail> {
    let clone = read_root(&ONE_MODULE)?.clone()?;
    assert_eq!(rt; clone.version(), "v4.0.30319");
    assert_eq!(rt; clone.stream_place(Kind::Guids).ok_or("no guids")?, 128..144);
    let headers = clone.headers().clone()?;
    assert_eq!(rt; headers.count(), 3);
    Ok(())
}
