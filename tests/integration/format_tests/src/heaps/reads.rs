use crate::heaps::GUIDS;
use heaps::{FaultCode, HeapFault, Strings, blob, guid, guid_text, text, user_string};
use std::test::Fail;

/// `#Strings` of a root with one module, `a.dll`.
const STRINGS: [u8; 8] = [0x00, 0x61, 0x2E, 0x64, 0x6C, 0x6C, 0x00, 0x00];

#[test]
fn reads_texts(rt: HostRuntime) {
    assert_eq!(rt; text(&STRINGS, 0), Ok(""));
    assert_eq!(rt; text(&STRINGS, 1), Ok("a.dll"));
    assert_eq!(rt; text(&STRINGS, 3), Ok("dll"));
    assert_eq!(rt; text(&STRINGS, 7), Ok(""));
    assert_eq!(rt; text(&STRINGS, 8), Err(HeapFault::BadString));
    assert_eq!(rt; text(&STRINGS, u32::MAX), Err(HeapFault::BadString));
}

#[test]
fn reads_texts_of_a_whole_heap(rt: HostRuntime) {
    for (heap, index, found) in [
        (b"\0N\xC3\xA9\0".as_slice(), 1, Ok("Né")),
        (b"\0N\xC3\xA9\0".as_slice(), 2, Ok("é")),
        (b"\0N\xC3\xA9\0".as_slice(), 3, Err(HeapFault::BadUtf8)),
        (b"\0N\xC3\xA9\0".as_slice(), 4, Ok("")),
        (b"\0N\xC3\xA9\0".as_slice(), 5, Err(HeapFault::BadString)),
        (b"\0\xC3(\0".as_slice(), 1, Err(HeapFault::BadUtf8)),
        (b"\0\xC3(\0".as_slice(), 2, Ok("(")),
        (b"\0\xC3(".as_slice(), 1, Err(HeapFault::BadString)),
        (b"\0a\0b".as_slice(), 1, Ok("a")),
        (b"\0a\0b".as_slice(), 3, Err(HeapFault::BadString)),
        (b"A\0".as_slice(), 0, Ok("")),
        (b"".as_slice(), 0, Ok("")),
        (b"".as_slice(), 1, Err(HeapFault::BadString)),
    ] {
        let strings = Strings::new(heap);
        assert_eq!(rt; strings.text(index), found, "at {index}");
        for at in 0..8 {
            let found = text(heap, at);
            assert_eq!(rt; strings.text(at), found, "at {at}");
            assert_eq!(rt; strings.check(at), found.map(|_| ()), "at {at}");
        }
    }
}

#[test]
fn reads_blobs(rt: HostRuntime) {
    let heap = [
        0x00, 0x02, 0xAA, 0xBB, 0x80, 0x02, 0xAA, 0xBB, 0x00, 0x02, 0xAA,
    ];
    assert!(rt; blob(&heap, 0) == Ok(&[]));
    assert!(rt; blob(&heap, 1) == Ok(&[0xAA, 0xBB]));
    assert!(rt; blob(&heap, 4) == Ok(&[0xAA, 0xBB]));
    assert!(rt; blob(&heap, 8) == Ok(&[]));
    assert!(rt; blob(&heap, 9) == Err(HeapFault::BadBlob));
    assert!(rt; blob(&heap, 11) == Err(HeapFault::BadBlob));
    assert!(rt; blob(&[], 0) == Ok(&[]));
    assert!(rt; blob(&[0xE0, 0x00, 0x00, 0x00], 1) == Ok(&[]));
    assert!(rt; blob(&[0x00, 0xE0, 0x00, 0x00, 0x00], 1) == Err(HeapFault::BadBlob));
}

#[test]
fn reads_guids(rt: HostRuntime) {
    assert_eq!(rt; guid(&GUIDS, 0), Ok(None));
    assert_eq!(rt; guid(&GUIDS, 1), Ok(Some(GUIDS)));
    assert_eq!(rt; guid(&GUIDS, 2), Err(HeapFault::BadGuid));
    assert_eq!(rt; guid(&[0; 31], 1), Ok(Some([0; 16])));
    assert_eq!(rt; guid(&[0; 31], 2), Err(HeapFault::BadGuid));
    assert_eq!(rt; guid(&[], 0), Ok(None));
}

#[test]
fn reads_user_strings(rt: HostRuntime) -> Result<(), Fail> {
    let heap = [
        0x00, 0x07, 0x41, 0x00, 0x3D, 0xD8, 0x00, 0xDE, 0x01, 0x01, 0xFF, 0x02, 0x41, 0x00,
    ];
    let string = user_string(&heap, 1).ok().ok_or("refused")?;
    let mut units = string.units();
    assert_eq!(rt; units.next(), Some(0x0041));
    assert_eq!(rt; units.next(), Some(0xD83D));
    assert_eq!(rt; units.next(), Some(0xDE00));
    assert_eq!(rt; units.next(), None);
    assert_eq!(rt; string.flag(), Some(1));
    let none = user_string(&heap, 0).ok().ok_or("refused")?;
    assert_eq!(rt; none.units().next(), None);
    assert_eq!(rt; none.flag(), None);
    let flag = user_string(&heap, 9).ok().ok_or("refused")?;
    assert_eq!(rt; flag.units().next(), None);
    assert_eq!(rt; flag.flag(), Some(0xFF));
    assert_eq!(rt;
        user_string(&heap, 11).err(),
        Some(HeapFault::BadUserString)
    );
    assert_eq!(rt; user_string(&heap, 14).err(), Some(HeapFault::BadBlob));
    assert_eq!(rt;
        user_string(&[0x00, 0x02, 0x41, 0x00], 1).err(),
        Some(HeapFault::BadUserString)
    );
    Ok(())
}

#[test]
fn prints_guids(rt: HostRuntime) -> Result<(), Fail> {
    for (guid, text) in [
        (GUIDS, "03020100-0504-0706-0809-0a0b0c0d0e0f"),
        ([0; 16], "00000000-0000-0000-0000-000000000000"),
        ([0xFF; 16], "ffffffff-ffff-ffff-ffff-ffffffffffff"),
    ] {
        let printed = guid_text(rt.alloc(), &guid)?;
        assert_eq!(rt; printed.as_str(), text);
    }
    Ok(())
}

#[test]
fn numbers_faults(rt: HostRuntime) {
    for (fault, code) in [
        (HeapFault::BadString, FaultCode::BadString),
        (HeapFault::BadUtf8, FaultCode::BadUtf8),
        (HeapFault::BadBlob, FaultCode::BadBlob),
        (HeapFault::BadGuid, FaultCode::BadGuid),
        (HeapFault::BadUserString, FaultCode::BadUserString),
    ] {
        assert_eq!(rt; fault.code(), code);
    }
}
