//! Tests of `cli_print`: what `clim root` and `clim check` print of a root and of a file.

use crate::runs::{Case, answer, other_answer};
use sample_roots::{ONE_MODULE, image, wider_image};
use std::test::Fail;

const LINES: &str = "\
version v4.0.30319
stream 80 40 #~
stream 120 8 #Strings
stream 128 16 #GUID
";

/// What is printed of the file of that root.
const FILE_LINES: &str = "\
cli 2.5 flags 00000001 entry 00000000 root 592 144
version v4.0.30319
stream 80 40 #~
stream 120 8 #Strings
stream 128 16 #GUID
";

#[test]
fn prints_a_root_or_its_fault(rt: HostRuntime) -> Result<(), Fail> {
    let version = "\
version v\\xc3\\xa90.30319
stream 80 40 #~
stream 120 8 #Strings
stream 128 16 #GUID
";
    let name = "\
version v4.0.30319
stream 80 40 #~
stream 120 8 \\x01\\x22\\x5c\\x7f ~!s
stream 128 16 #GUID
";
    let cases = [
        Case::new(144, 0, b"", 0, LINES),
        Case::new(144, 17, b"\xC3\xA9", 0, version),
        Case::new(144, 52, b"\x01\"\\\x7F ~!", 0, name),
        Case::new(144, 41, b"-", 1, "fault 3 307 at 32: Uncompressed\n"),
        Case::new(144, 41, b"x", 1, "fault 3 308 at 30: NoTables\n"),
        Case::new(0, 0, b"", 1, "fault 3 301 at 0: RootSignature\n"),
        Case::new(27, 0, b"", 1, "fault 3 302 at 12: Version\n"),
        Case::new(31, 0, b"", 1, "fault 3 303 at 28: StreamCount\n"),
        Case::new(40, 0, b"", 1, "fault 3 304 at 32: StreamHeader\n"),
        Case::new(119, 0, b"", 1, "fault 3 305 at 32: StreamRange\n"),
        Case::new(143, 0, b"", 1, "fault 3 305 at 64: StreamRange\n"),
    ];
    for case in &cases {
        let words = ["clim", "root", "--bare"];
        assert_eq!(rt; other_answer(&rt, &words, &ONE_MODULE, case)?, None);
    }
    let (status, out, err) = answer(&rt, &["clim", "root", "--bare", "a.root"])?;
    assert_eq!(rt; status, 3);
    assert!(rt; out.is_empty());
    assert_eq!(rt; err.as_str(), "error: cannot read a.root\n  reason: no such file\n");
    Ok(())
}

#[test]
fn prints_an_image_or_its_fault(rt: HostRuntime) -> Result<(), Fail> {
    let cases = [
        Case::new(1024, 0, b"", 0, FILE_LINES),
        Case::new(736, 0, b"", 0, FILE_LINES),
        Case::new(0, 0, b"", 1, "fault 1 102 at 0: DosHeader\n"),
        Case::new(2, 0, b"", 1, "fault 1 102 at 0: DosHeader\n"),
        Case::new(63, 0, b"", 1, "fault 1 102 at 0: DosHeader\n"),
        Case::new(64, 0, b"", 1, "fault 1 103 at 60: PeSignature\n"),
        Case::new(152, 0, b"", 1, "fault 1 104 at 148: OptionalHeader\n"),
        Case::new(1024, 148, &[215], 1, "fault 1 104 at 148: OptionalHeader\n"),
        Case::new(
            1024,
            152,
            &[0x0B, 0x02],
            1,
            "fault 1 105 at 148: Pe32PlusSize\n",
        ),
        Case::new(1024, 152, &[0x0C], 1, "fault 1 106 at 152: Magic\n"),
        Case::new(1024, 244, &[14], 1, "fault 1 107 at 244: Directories\n"),
        Case::new(1024, 134, &[16], 0, FILE_LINES),
        Case::new(1024, 134, &[17], 1, "fault 1 108 at 134: Sections\n"),
        Case::new(376, 0, b"", 1, "fault 1 108 at 134: Sections\n"),
        Case::new(1024, 364, &[0], 1, "fault 2 201 at 360: NoCliHeader\n"),
        Case::new(1024, 364, &[71], 1, "fault 2 202 at 360: CliAddress\n"),
        Case::new(591, 0, b"", 1, "fault 2 202 at 360: CliAddress\n"),
        Case::new(1024, 520, &[71], 1, "fault 2 203 at 520: CliSize\n"),
        Case::new(735, 0, b"", 1, "fault 2 204 at 528: MetadataAddress\n"),
        Case::new(1024, 592, b"X", 1, "fault 3 301 at 592: RootSignature\n"),
        Case::new(1024, 633, b"-", 1, "fault 3 307 at 624: Uncompressed\n"),
    ];
    let sample = image();
    for case in &cases {
        assert_eq!(rt; other_answer(&rt, &["clim", "root"], &sample, case)?, None);
    }
    Ok(())
}

/// A PE32+ file prints what the PE32 file with the same root prints.
#[test]
fn prints_the_same_of_a_wider_image(rt: HostRuntime) -> Result<(), Fail> {
    let wider = wider_image();
    let whole = Case::new(1024, 0, b"", 0, FILE_LINES);
    assert_eq!(rt; other_answer(&rt, &["clim", "root"], &wider, &whole)?, None);
    let checked = Case::new(1024, 0, b"", 0, "ok\n");
    assert_eq!(rt; other_answer(&rt, &["clim", "check"], &wider, &checked)?, None);
    Ok(())
}

#[test]
fn checks_a_file(rt: HostRuntime) -> Result<(), Fail> {
    let cases = [
        Case::new(1024, 0, b"", 0, "ok\n"),
        Case::new(736, 0, b"", 0, "ok\n"),
        Case::new(0, 0, b"", 1, "fault 1 102 at 0: DosHeader\n"),
        Case::new(2, 0, b"", 1, "fault 1 102 at 0: DosHeader\n"),
        Case::new(735, 0, b"", 1, "fault 2 204 at 528: MetadataAddress\n"),
        Case::new(
            1024,
            152,
            &[0x0B, 0x02],
            1,
            "fault 1 105 at 148: Pe32PlusSize\n",
        ),
        Case::new(1024, 633, b"-", 1, "fault 3 307 at 624: Uncompressed\n"),
        Case::new(1024, 704, &[2], 1, "fault 5 504 at 704: BadGuid\n"),
        Case::new(1024, 543, &[0x06], 1, "fault 8 801 at 540: EntryPoint\n"),
        Case::new(
            1024,
            540,
            &[1, 0, 0, 0x06],
            1,
            "fault 8 801 at 540: EntryPoint\n",
        ),
        Case::new(1024, 536, &[0x10, 0, 0, 0, 1, 0, 0, 0x06], 0, "ok\n"),
    ];
    let sample = image();
    for case in &cases {
        assert_eq!(rt; other_answer(&rt, &["clim", "check"], &sample, case)?, None);
    }
    Ok(())
}

#[test]
fn checks_a_root(rt: HostRuntime) -> Result<(), Fail> {
    let cases = [
        Case::new(144, 0, b"", 0, "ok\n"),
        Case::new(0, 0, b"", 1, "fault 3 301 at 0: RootSignature\n"),
        Case::new(40, 0, b"", 1, "fault 3 304 at 32: StreamHeader\n"),
        Case::new(143, 0, b"", 1, "fault 3 305 at 64: StreamRange\n"),
        Case::new(144, 41, b"-", 1, "fault 3 307 at 32: Uncompressed\n"),
        Case::new(144, 94, &[1], 1, "fault 4 404 at 88: UnknownTable\n"),
        Case::new(144, 110, &[7], 0, "ok\n"),
        Case::new(144, 110, &[8], 1, "fault 5 501 at 110: BadString\n"),
        Case::new(144, 112, &[2], 1, "fault 5 504 at 112: BadGuid\n"),
    ];
    for case in &cases {
        let words = ["clim", "check", "--bare"];
        assert_eq!(rt; other_answer(&rt, &words, &ONE_MODULE, case)?, None);
    }
    let (status, out, err) = answer(&rt, &["clim", "check", "d.root"])?;
    assert_eq!(rt; status, 3);
    assert!(rt; out.is_empty());
    assert_eq!(rt; err.as_str(), "error: cannot read d.root\n  reason: no such file\n");
    Ok(())
}
