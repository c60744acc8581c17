use packed::{
    put_signed, put_unsigned, read_signed, read_unsigned, u16_at, u32_at, u64_at, unsigned_len,
};
use std::test::Fail;

#[test]
fn reads_the_lowest_byte_first(rt: HostRuntime) {
    let bytes = [0xFF, 0x01, 0x02, 0x03, 0x04, 0x05, 0x06, 0x07, 0x88, 0xFF];
    assert_eq!(rt; u16_at(&bytes, 1), 0x0201);
    assert_eq!(rt; u32_at(&bytes, 1), 0x0403_0201);
    assert_eq!(rt; u64_at(&bytes, 1), 0x8807_0605_0403_0201);
    assert_eq!(rt; u16_at(&bytes, 8), 0xFF88);
}

#[test]
fn encodes_unsigned_numbers(rt: HostRuntime) -> Result<(), Fail> {
    for (number, encoding) in [
        (0, [0x00].as_slice()),
        (5, [0x05].as_slice()),
        (0x7F, [0x7F].as_slice()),
        (0x80, [0x80, 0x80].as_slice()),
        (0x3FFF, [0xBF, 0xFF].as_slice()),
        (0x4000, [0xC0, 0x00, 0x40, 0x00].as_slice()),
        (0x1FFF_FFFF, [0xDF, 0xFF, 0xFF, 0xFF].as_slice()),
    ] {
        let mut bytes = Vec::new(rt.alloc());
        put_unsigned(&mut bytes, number)?;
        assert_eq!(rt; bytes.as_slice(), encoding);
        assert_eq!(rt; unsigned_len(number), encoding.len());
        bytes.push(0xFF)?;
        assert_eq!(rt;
            read_unsigned(bytes.as_slice()),
            Some((number, encoding.len()))
        );
    }
    Ok(())
}

#[test]
fn encodes_signed_numbers(rt: HostRuntime) -> Result<(), Fail> {
    for (number, encoding) in [
        (3, [0x06].as_slice()),
        (-3, [0x7B].as_slice()),
        (64, [0x80, 0x80].as_slice()),
        (-64, [0x01].as_slice()),
        (8192, [0xC0, 0x00, 0x40, 0x00].as_slice()),
        (-8192, [0x80, 0x01].as_slice()),
        (268_435_455, [0xDF, 0xFF, 0xFF, 0xFE].as_slice()),
        (-268_435_456, [0xC0, 0x00, 0x00, 0x01].as_slice()),
    ] {
        let mut bytes = Vec::new(rt.alloc());
        put_signed(&mut bytes, number)?;
        assert_eq!(rt; bytes.as_slice(), encoding);
        bytes.push(0xFF)?;
        assert_eq!(rt;
            read_signed(bytes.as_slice()),
            Some((number, encoding.len()))
        );
    }
    Ok(())
}

#[test]
fn reads_longer_forms_and_no_more(rt: HostRuntime) {
    assert_eq!(rt; read_unsigned(&[0x80, 0x05]), Some((5, 2)));
    assert_eq!(rt; read_unsigned(&[0xC0, 0x00, 0x00, 0x05]), Some((5, 4)));
    assert_eq!(rt; read_signed(&[0x80, 0x06]), Some((3, 2)));
    for bytes in [
        [].as_slice(),
        [0x80].as_slice(),
        [0xC0, 0, 0].as_slice(),
        [0xE0, 0, 0, 0].as_slice(),
        [0xFF, 0, 0, 0].as_slice(),
    ] {
        assert_eq!(rt; read_unsigned(bytes), None);
        assert_eq!(rt; read_signed(bytes), None);
    }
}
