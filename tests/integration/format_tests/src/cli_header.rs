//! Tests of `cli_header`: a CLI header, each of its rules, and those of `pe` that come first.

use crate::images::sample_with;
use cli_header::{CliHeader, DataDirectory, Fault, read_cli, read_pe};
use sample_roots::wider_image;
use std::alloc::Global;
use std::test::Fail;

/// The CLI header of these bytes, of which an image is read first.
fn read(bytes: &[u8]) -> Result<CliHeader, Fault> {
    let pe = read_pe(bytes)?;
    read_cli(&pe)
}

/// The layer, the code and the offset of the fault of these bytes: as an image, and then of its CLI header.
fn layer_and_fault_of(bytes: &[u8]) -> Option<(u8, u16, u64)> {
    let fault = read(bytes).err()?;
    Some((fault.layer, fault.code, fault.offset))
}

/// A directory of these two numbers.
fn directory(rva: u32, size: u32) -> DataDirectory {
    DataDirectory { rva, size }
}

#[test]
fn reads_each_prefix(rt: HostRuntime) -> Result<(), Fail> {
    let sample = sample_with(rt.alloc(), &[])?;
    for len in 0..=sample.len() {
        let prefix = sample.get(..len).ok_or("past the end")?;
        let fault = match len {
            0..=63 => Some((1, 102, 0)),
            64..=151 => Some((1, 103, 60)),
            152..=375 => Some((1, 104, 148)),
            376..=415 => Some((1, 108, 134)),
            416..=591 => Some((2, 202, 360)),
            592..=735 => Some((2, 204, 528)),
            _ => None,
        };
        assert_eq!(rt; layer_and_fault_of(prefix), fault, "of {len} bytes");
    }
    Ok(())
}

#[test]
fn shows_the_sample(rt: HostRuntime) -> Result<(), Fail> {
    let sample = sample_with(rt.alloc(), &[])?;
    let header = read(sample.as_slice())?;
    assert_eq!(rt; header.place, 520);
    assert_eq!(rt; header.cb, 72);
    assert_eq!(rt;
        (header.major_runtime_version, header.minor_runtime_version),
        (2, 5)
    );
    assert_eq!(rt; header.metadata, directory(0x2050, 144));
    assert_eq!(rt; header.flags, 1);
    assert_eq!(rt; header.entry_point_token, 0);
    assert_eq!(rt; header.resources, directory(0, 0));
    assert_eq!(rt; header.root, 592..736);
    Ok(())
}

#[test]
fn reads_each_field_at_its_offset(rt: HostRuntime) -> Result<(), Fail> {
    let fields = [
        (0x208, b"\xFF\0\0\x80\x01\x02\x03\x04".as_slice()),
        (
            0x210,
            b"\x51\x20\0\0\x91\0\0\0\x05\x06\x07\x08\x09\x0A\x0B\x0C",
        ),
        (
            0x220,
            b"\x10\0\0\0\x11\0\0\0\x12\0\0\0\x13\0\0\0\x14\0\0\0\x15\0\0\0",
        ),
        (
            0x238,
            b"\x16\0\0\0\x17\0\0\0\x18\0\0\0\x19\0\0\0\x1A\0\0\0\x1B\0\0\0",
        ),
    ];
    let file = sample_with(rt.alloc(), fields.as_slice())?;
    let header = read(file.as_slice())?;
    let expected = CliHeader {
        place: 520,
        cb: 0x8000_00FF,
        major_runtime_version: 0x0201,
        minor_runtime_version: 0x0403,
        metadata: directory(0x2051, 0x91),
        flags: 0x0807_0605,
        entry_point_token: 0x0C0B_0A09,
        resources: directory(0x10, 0x11),
        strong_name_signature: directory(0x12, 0x13),
        code_manager_table: directory(0x14, 0x15),
        vtable_fixups: directory(0x16, 0x17),
        export_address_table_jumps: directory(0x18, 0x19),
        managed_native_header: directory(0x1A, 0x1B),
        root: 593..738,
    };
    assert_eq!(rt; header, expected);
    Ok(())
}

#[test]
fn names_the_first_rule(rt: HostRuntime) -> Result<(), Fail> {
    for (changes, fault) in [
        // Rules of the image come first.
        (
            [(0x94, b"\xD7\0".as_slice()), (0, b"MZ")],
            Some((1, 104, 148)),
        ),
        ([(0x98, b"\x0C\x01"), (0, b"MZ")], Some((1, 106, 152))),
        ([(0x98, b"\x0B\x02"), (0, b"MZ")], Some((1, 105, 148))),
        ([(0xF4, b"\x0E\0\0\0"), (0, b"MZ")], Some((1, 107, 244))),
        ([(0x86, b"\x10\0"), (0, b"MZ")], None),
        ([(0x86, b"\x11\0"), (0, b"MZ")], Some((1, 108, 134))),
        // A directory of address 0, of size 0, of 71 bytes, and of more than it needs.
        ([(0x168, b"\0\0\0\0"), (0, b"MZ")], Some((2, 201, 360))),
        ([(0x16C, b"\0\0\0\0"), (0, b"MZ")], Some((2, 201, 360))),
        ([(0x16C, b"\x47\0\0\0"), (0, b"MZ")], Some((2, 202, 360))),
        ([(0x16C, b"\xFF\xFF\xFF\xFF"), (0, b"MZ")], None),
        // A header that no section has.
        ([(0x168, b"\xB9\x21\0\0"), (0, b"MZ")], Some((2, 202, 360))),
        ([(0x168, b"\xFF\x1F\0\0"), (0, b"MZ")], Some((2, 202, 360))),
        // Cb of 71 bytes, even if no section has the metadata.
        ([(0x208, b"\x47\0\0\0"), (0, b"MZ")], Some((2, 203, 520))),
        (
            [(0x208, b"\x47\0\0\0"), (0x210, b"\0\0\0\0")],
            Some((2, 203, 520)),
        ),
        // Metadata that no section has, that ends with the section, and that ends one byte after it.
        ([(0x210, b"\0\0\0\0"), (0, b"MZ")], Some((2, 204, 528))),
        ([(0x214, b"\xB0\x01\0\0"), (0, b"MZ")], None),
        ([(0x214, b"\xB1\x01\0\0"), (0, b"MZ")], Some((2, 204, 528))),
        // Metadata of no bytes is the next layer's to refuse.
        ([(0x214, b"\0\0\0\0"), (0, b"MZ")], None),
    ] {
        let file = sample_with(rt.alloc(), changes.as_slice())?;
        let (offset, _) = changes[0];
        assert_eq!(rt; layer_and_fault_of(file.as_slice()), fault, "changed at {offset}");
    }
    Ok(())
}

#[test]
fn reads_the_same_of_a_wider_image(rt: HostRuntime) -> Result<(), Fail> {
    let sample = sample_with(rt.alloc(), &[])?;
    let wider = wider_image();
    assert_eq!(rt; read(&wider)?, read(sample.as_slice())?);
    Ok(())
}

#[test]
fn finds_the_header_in_the_second_section(rt: HostRuntime) -> Result<(), Fail> {
    let alloc = rt.alloc();
    let moved = (0x168, b"\xB9\x21\0\0".as_slice());
    let second = (0x1AC, b"\0\x21\0\0\0\x02\0\0\0\x04\0\0".as_slice());
    let mut file = sample_with(alloc, &[(0x86, b"\x02\0"), moved, second])?;
    file.extend_from_slice(vec![in alloc; 0; 0x200]?.as_slice())?;
    // The 72 bytes are those at 0x4B9, where all is 0.
    assert_eq!(rt; layer_and_fault_of(file.as_slice()), Some((2, 203, 0x4B9)));
    let mut file = sample_with(alloc, &[moved])?;
    file.extend_from_slice(vec![in alloc; 0; 0x200]?.as_slice())?;
    assert_eq!(rt; layer_and_fault_of(file.as_slice()), Some((2, 202, 360)));
    Ok(())
}
