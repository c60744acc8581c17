use crate::reports::fault_of_image;
use crate::opening::samples::is_same_module;
use opening::{open_image, open_root, read_heads};
use sample_roots::{ONE_MODULE, TWO_TYPES, changed, image, wider_image, write_at};
use std::alloc::Global;
use std::test::Fail;

/// The fault of the file with some bytes changed.
fn fault_with(alloc: Global, changes: &[(usize, u8)]) -> Result<Option<(u16, u64)>, Fail> {
    let file = image();
    let file = changed(alloc, file.as_slice(), changes)?;
    fault_of_image(alloc, file.as_slice())
}

#[test]
fn shows_the_root_of_a_file_and_its_header(rt: HostRuntime) -> Result<(), Fail> {
    let file = image();
    let (header, view) = open_image(file.as_slice())?;
    assert_eq!(rt;
        (header.major_runtime_version, header.minor_runtime_version),
        (2, 5)
    );
    assert_eq!(rt; (header.flags, header.entry_point_token), (1, 0));
    assert_eq!(rt; (header.place, header.root), (520, 592..736));
    assert!(rt; is_same_module(&view, &open_root(&ONE_MODULE)?));
    Ok(())
}

#[test]
fn the_heads_of_a_file_are_read_without_its_tables(rt: HostRuntime) -> Result<(), Fail> {
    let alloc = rt.alloc();
    let file = image();
    let heads = read_heads(file.as_slice())?;
    assert_eq!(rt; heads.header, open_image(file.as_slice())?.0);
    assert_eq!(rt; heads.root.version(), "v4.0.30319");
    assert_eq!(rt; heads.image.range(0x2008, 72), Some(520..592));
    // A fault of the tables is none of the heads, and one of the directory is.
    let tables = changed(alloc, file.as_slice(), &[(592 + 94, 0x01)])?;
    assert_eq!(rt; read_heads(tables.as_slice())?.header, heads.header);
    let directory = changed(alloc, file.as_slice(), &[(592 + 41, 0x2D)])?;
    let fault = read_heads(directory.as_slice()).err().ok_or("no fault")?;
    assert_eq!(rt; (fault.code, fault.offset), (307, 624));
    Ok(())
}

#[test]
fn offsets_of_faults_count_in_the_file(rt: HostRuntime) -> Result<(), Fail> {
    let alloc = rt.alloc();
    let file = image();
    assert_eq!(rt; fault_with(alloc, &[(592 + 41, 0x2D)])?, Some((307, 624)));
    assert_eq!(rt; fault_with(alloc, &[(592 + 94, 0x01)])?, Some((404, 680)));
    assert_eq!(rt; fault_with(alloc, &[(592 + 110, 8)])?, Some((501, 702)));
    assert_eq!(rt; fault_with(alloc, &[(592 + 112, 2)])?, Some((504, 704)));
    assert_eq!(rt; fault_with(alloc, &[(0x99, 0x02)])?, Some((105, 148)));
    // The largest number of sections that the file has room for.
    assert_eq!(rt; fault_with(alloc, &[(0x86, 0x10)])?, None);
    // A root of no bytes.
    assert_eq!(rt; fault_with(alloc, &[(0x214, 0)])?, Some((301, 592)));
    // An entry point that is no row.
    let entry = fault_with(alloc, &[(0x21C, 1), (0x21F, 6)])?;
    assert_eq!(rt; entry, Some((801, 540)));
    // The file up to the end of its root, and a byte less.
    for (len, fault) in [(735, Some((204, 528))), (736, None)] {
        assert_eq!(rt; fault_of_image(alloc, &file[..len])?, fault);
    }
    Ok(())
}

#[test]
fn shows_the_same_of_a_wider_image(rt: HostRuntime) -> Result<(), Fail> {
    let wider = wider_image();
    let (header, view) = open_image(wider.as_slice())?;
    assert_eq!(rt; header.root, 592..736);
    assert!(rt; is_same_module(&view, &open_root(&ONE_MODULE)?));
    Ok(())
}

#[test]
fn the_entry_point_is_a_method_or_a_file_that_exists(rt: HostRuntime) -> Result<(), Fail> {
    let alloc = rt.alloc();
    // One method stands in the root, and two types; the flag of a native entry point is 0x10.
    let mut file = image();
    write_at(&mut file, 0x214, &[200]);
    write_at(&mut file, 592, &TWO_TYPES);
    for (flags, token, fault) in [
        (0x01, 0x0000_0000u32, None),
        (0x01, 0x0600_0001, None),
        (0x01, 0x0600_0002, Some((801, 540))),
        (0x01, 0x0600_0000, Some((801, 540))),
        (0x01, 0x0000_0001, Some((801, 540))),
        (0x01, 0x0200_0001, Some((801, 540))),
        (0x01, 0x2600_0001, Some((801, 540))),
        (0x01, 0xFF00_0001, Some((801, 540))),
        (0x11, 0x0600_0002, None),
        (0x11, 0xFF00_0001, None),
        (0xEF, 0x0600_0002, Some((801, 540))),
    ] {
        write_at(&mut file, 0x218, &[flags]);
        write_at(&mut file, 0x21C, token.to_le_bytes().as_slice());
        assert_eq!(rt;
            fault_of_image(alloc, file.as_slice())?,
            fault,
            "of {token} by {flags}"
        );
    }
    // A fault of the root comes before that of the entry point.
    write_at(&mut file, 592 + 193, &[0]);
    assert_eq!(rt; fault_of_image(alloc, file.as_slice())?, Some((701, 740)));
    Ok(())
}
