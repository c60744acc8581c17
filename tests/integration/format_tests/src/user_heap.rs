//! Tests of `user_heap`: user strings and their flags.

use heaps::{UserHeap, user_string};
use std::test::Fail;

#[test]
fn pushes_user_strings(rt: HostRuntime) -> Result<(), Fail> {
    let mut heap = UserHeap::new(rt.alloc());
    assert_eq!(rt; heap.push(&[0x0041, 0x0042]), Ok(1));
    assert_eq!(rt; heap.push(&[0x0027]), Ok(7));
    let bytes = heap.padded().ok().ok_or("refused")?;
    assert!(rt;
        bytes.as_slice()
            == [
                0x00, 0x05, 0x41, 0x00, 0x42, 0x00, 0x00, 0x03, 0x27, 0x00, 0x01, 0x00,
            ]
            .as_slice()
    );
    let bytes = UserHeap::new(rt.alloc()).padded().ok().ok_or("refused")?;
    assert!(rt; bytes.as_slice() == [0; 4].as_slice());
    let mut heap = UserHeap::new(rt.alloc());
    assert_eq!(rt; heap.push(&[0x0061, 0x0100, 0xD83D]), Ok(1));
    let bytes = heap.padded().ok().ok_or("refused")?;
    assert!(rt;
        bytes.as_slice()
            == [
                0x00, 0x07, 0x61, 0x00, 0x00, 0x01, 0x3D, 0xD8, 0x01, 0x00, 0x00, 0x00,
            ]
            .as_slice()
    );
    let mut heap = UserHeap::new(rt.alloc());
    assert_eq!(rt; heap.push(&[]), Ok(1));
    let bytes = heap.padded().ok().ok_or("refused")?;
    assert!(rt; bytes.as_slice() == [0x00, 0x01, 0x00, 0x00].as_slice());
    Ok(())
}

#[test]
fn flags_special_units(rt: HostRuntime) -> Result<(), Fail> {
    for (unit, flag) in [
        (0x0000, 0),
        (0x0001, 1),
        (0x0008, 1),
        (0x0009, 0),
        (0x000D, 0),
        (0x000E, 1),
        (0x001F, 1),
        (0x0020, 0),
        (0x0026, 0),
        (0x0027, 1),
        (0x0028, 0),
        (0x002D, 1),
        (0x007E, 0),
        (0x007F, 1),
        (0x0080, 0),
        (0x00FF, 0),
        (0x0100, 1),
    ] {
        let mut heap = UserHeap::new(rt.alloc());
        assert_eq!(rt; heap.push(&[0x0041, unit]), Ok(1));
        let bytes = heap.padded().ok().ok_or("refused")?;
        let string = user_string(&bytes, 1).ok().ok_or("refused")?;
        assert_eq!(rt; string.flag(), Some(flag), "at {unit}");
    }
    Ok(())
}
