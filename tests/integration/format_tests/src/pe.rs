//! Tests of `pe`: a PE file, each of its rules, and the file offset of an address.

use crate::images::{sample_with, sections_of};
use packed::Fault;
use pe::{Pe, read_pe};
use sample_roots::{fault_of, wider_image};
use std::alloc::Global;
use std::ops::Range;
use std::test::Fail;

#[test]
fn reads_each_prefix(rt: HostRuntime) -> Result<(), Fail> {
    let sample = sample_with(rt.alloc(), &[])?;
    for len in 0..=sample.len() {
        let prefix = sample.get(..len).ok_or("past the end")?;
        let fault = match len {
            0..=63 => Some((102, 0)),
            64..=151 => Some((103, 60)),
            152..=375 => Some((104, 148)),
            376..=415 => Some((108, 134)),
            _ => None,
        };
        assert_eq!(rt; fault_of(read_pe(prefix).err()), fault, "of {len} bytes");
    }
    let fault = Fault {
        layer: 1,
        code: 102,
        offset: 0,
    };
    assert_eq!(rt; read_pe(b"MZ".as_slice()).err(), Some(fault));
    Ok(())
}

#[test]
fn shows_the_sample(rt: HostRuntime) -> Result<(), Fail> {
    let sample = sample_with(rt.alloc(), &[])?;
    let pe = read_pe(sample.as_slice())?;
    assert_eq!(rt; pe.cli_directory(), (0x2008, 72));
    assert_eq!(rt; pe.cli_directory_offset(), 360);
    assert_eq!(rt; pe.bytes(), sample.as_slice());
    for (rva, n, range) in [
        (0x2008, 72, Some(520..592)),
        (0x2000, 0x200, Some(512..1024)),
        (0x2200, 0, Some(1024..1024)),
        (0x2000, 0x201, None),
        (0x1FFF, 2, None),
        (0x2201, 0, None),
        (0, 0, None),
    ] {
        assert_eq!(rt; pe.range(rva, n), range, "of {n} bytes at {rva}");
    }
    Ok(())
}

#[test]
fn names_the_first_rule(rt: HostRuntime) -> Result<(), Fail> {
    for (changes, fault) in [
        // Another DOS signature; lfanew past the end, near 2^32, and at other bytes.
        ([(1, b"M".as_slice()), (1, b"M")], Some((102, 0))),
        ([(0x3C, b"\xE9\x03\0\0"), (0, b"MZ")], Some((103, 60))),
        ([(0x3C, b"\xFF\xFF\xFF\xFF"), (0, b"MZ")], Some((103, 60))),
        ([(0x3C, b"\x81\0\0\0"), (0, b"MZ")], Some((103, 60))),
        ([(0x83, b"\x01"), (0, b"MZ")], Some((103, 60))),
        // An optional header of 215, 216 and 872 bytes, as long as the file has room, and one more.
        ([(0x94, b"\xD7\0"), (0, b"MZ")], Some((104, 148))),
        ([(0x94, b"\xD8\0"), (0, b"MZ")], None),
        ([(0x94, b"\x68\x03"), (0x86, b"\0\0")], None),
        ([(0x94, b"\x69\x03"), (0x86, b"\0\0")], Some((104, 148))),
        // Another magic, and that of PE32+ alone, with 231 and 232 bytes.
        ([(0x98, b"\x0C\x01"), (0, b"MZ")], Some((106, 152))),
        ([(0x98, b"\x0B\x02"), (0, b"MZ")], Some((105, 148))),
        ([(0x98, b"\x0B\x02"), (0x94, b"\xE7\0")], Some((105, 148))),
        ([(0x98, b"\x0B\x02"), (0x94, b"\xE8\0")], Some((107, 260))),
        // Fourteen data directories, and fifteen.
        ([(0xF4, b"\x0E\0\0\0"), (0, b"MZ")], Some((107, 244))),
        ([(0xF4, b"\x0F\0\0\0"), (0, b"MZ")], None),
        // The largest number of sections that there is room for, and one more.
        ([(0x86, b"\x10\0"), (0, b"MZ")], None),
        ([(0x86, b"\x11\0"), (0, b"MZ")], Some((108, 134))),
        ([(0x86, b"\xFF\xFF"), (0, b"MZ")], Some((108, 134))),
    ] {
        let file = sample_with(rt.alloc(), changes.as_slice())?;
        let (offset, _) = changes[0];
        let found = fault_of(read_pe(file.as_slice()).err());
        assert_eq!(rt; found, fault, "changed at {offset}");
    }
    Ok(())
}

#[test]
fn finds_the_same_in_a_wider_image(rt: HostRuntime) -> Result<(), Fail> {
    let file = wider_image();
    let pe = read_pe(&file)?;
    assert_eq!(rt; pe.cli_directory(), (0x2008, 72));
    assert_eq!(rt; pe.cli_directory_offset(), 376);
    assert_eq!(rt; pe.range(0x2008, 72), Some(520..592));
    Ok(())
}

/// Where these bytes lie in a file with these sections.
fn range_in(
    alloc: Global,
    sections: &[&[u8]],
    rva: u32,
    n: u32,
) -> Result<Option<Range<usize>>, Fail> {
    let file = sections_of(alloc, sections)?;
    let pe: Pe = read_pe(file.as_slice())?;
    Ok(pe.range(rva, n))
}

#[test]
fn takes_the_first_section_that_has_the_bytes(rt: HostRuntime) -> Result<(), Fail> {
    let alloc = rt.alloc();
    let first = b"\0\x20\0\0\0\x02\0\0\0\x02\0\0".as_slice();
    let second = b"\0\x21\0\0\0\x02\0\0\0\x04\0\0".as_slice();
    assert_eq!(rt;
        range_in(alloc, &[first, second], 0x21B8, 72)?,
        Some(0x3B8..0x400)
    );
    assert_eq!(rt;
        range_in(alloc, &[first, second], 0x21B9, 72)?,
        Some(0x4B9..0x501)
    );
    assert_eq!(rt; range_in(alloc, &[first], 0x21B8, 72)?, Some(0x3B8..0x400));
    assert_eq!(rt; range_in(alloc, &[first], 0x21B9, 72)?, None);
    assert_eq!(rt;
        range_in(alloc, &[second, first], 0x21B8, 72)?,
        Some(0x4B8..0x500)
    );
    assert_eq!(rt; range_in(alloc, &[], 0x21B8, 72)?, None);
    Ok(())
}

#[test]
fn tries_no_section_after_one_that_is_cut_off(rt: HostRuntime) -> Result<(), Fail> {
    let alloc = rt.alloc();
    let cut = b"\0\x20\0\0\0\x10\0\0\0\x04\0\0".as_slice();
    let whole = b"\0\x20\0\0\0\x10\0\0\0\0\0\0".as_slice();
    assert_eq!(rt;
        range_in(alloc, &[cut, whole], 0x2000, 0x200)?,
        Some(0x400..0x600)
    );
    assert_eq!(rt; range_in(alloc, &[cut, whole], 0x2000, 0x201)?, None);
    assert_eq!(rt;
        range_in(alloc, &[whole, cut], 0x2000, 0x201)?,
        Some(0..0x201)
    );
    Ok(())
}

#[test]
fn sums_do_not_wrap(rt: HostRuntime) -> Result<(), Fail> {
    let alloc = rt.alloc();
    let last = b"\0\xFF\xFF\xFF\0\x02\0\0\0\x02\0\0".as_slice();
    assert_eq!(rt;
        range_in(alloc, &[last], 0xFFFF_FFFF, 2)?,
        Some(0x2FF..0x301)
    );
    assert_eq!(rt; range_in(alloc, &[last], 0xFFFF_FF00, 0x201)?, None);
    assert_eq!(rt; range_in(alloc, &[last], 0, 0)?, None);
    let first = b"\0\x20\0\0\0\x02\0\0\0\x02\0\0".as_slice();
    assert_eq!(rt; range_in(alloc, &[first], 0x2010, 0xFFFF_FFFF)?, None);
    let far = b"\0\x20\0\0\0\x02\0\0\xFF\xFF\xFF\xFF".as_slice();
    assert_eq!(rt; range_in(alloc, &[far], 0x2010, 1)?, None);
    Ok(())
}

#[test]
fn a_clone_is_the_same_file(rt: HostRuntime) -> Result<(), Fail> {
    let sample = sample_with(rt.alloc(), &[])?;
    let pe = read_pe(sample.as_slice())?;
    let clone = pe.clone()?;
    assert_eq!(rt; clone.cli_directory(), pe.cli_directory());
    assert_eq!(rt; clone.bytes().len(), sample.len());
    Ok(())
}
