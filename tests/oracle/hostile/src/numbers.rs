use std::alloc::{AllocError, Global};

/// The number of `width` bytes at an offset, the low byte first (II.24.2); `None` past the end.
pub fn number_at(bytes: &[u8], offset: usize, width: usize) -> Option<u32> {
    let part = bytes.get(offset..offset.checked_add(width)?)?;
    let mut number = 0u32;
    for byte in part.iter().rev() {
        number = number << 8 | u32::from(*byte);
    }
    Some(number)
}

/// Writes the low bytes of a number, the lowest first.
pub fn put_number(bytes: &mut Vec<u8>, number: u32, width: usize) -> Result<(), AllocError> {
    bytes.extend_from_slice(&number.to_le_bytes()[..width])
}

/// The packed number at an offset and how many bytes it takes (II.23.2), if any.
pub fn packed_at(bytes: &[u8], offset: usize) -> Option<(u32, usize)> {
    let (width, mask) = match *bytes.get(offset)? {
        0..=0x7F => (1, 0x7F),
        0x80..=0xBF => (2, 0x3FFF),
        0xC0..=0xDF => (4, 0x1FFF_FFFF),
        _ => return None,
    };
    let part = bytes.get(offset..offset.checked_add(width)?)?;
    let mut number = 0u32;
    for byte in part {
        number = number << 8 | u32::from(*byte);
    }
    Some((number & mask, width))
}

/// Writes a packed number in the form of `width` bytes.
pub fn put_packed(bytes: &mut Vec<u8>, number: u32, width: usize) -> Result<(), AllocError> {
    let marked = match width {
        1 => number,
        2 => 0x8000 | number,
        _ => 0xC000_0000 | number,
    };
    bytes.extend_from_slice(&marked.to_be_bytes()[4 - width..])
}

/// How many bytes the shortest form of a packed number takes.
pub fn packed_width(number: u32) -> usize {
    match number {
        0..=0x7F => 1,
        0x80..=0x3FFF => 2,
        _ => 4,
    }
}

/// How many bits a packed number of `width` bytes has.
fn bits_of(width: usize) -> u32 {
    match width {
        1 => 7,
        2 => 14,
        _ => 29,
    }
}

/// The signed number that a packed number of `width` bytes stands for: its sign is the lowest bit (II.23.2).
pub fn signed_of(number: u32, width: usize) -> i64 {
    let half = i64::from(number >> 1);
    if number & 1 == 1 {
        half - (1 << (bits_of(width) - 1))
    } else {
        half
    }
}

/// The packed number of `width` bytes that stands for a signed number.
pub fn unsigned_of(number: i64, width: usize) -> u32 {
    let bits = bits_of(width);
    if number < 0 {
        ((number + (1 << (bits - 1))) * 2 + 1) as u32
    } else {
        (number * 2) as u32
    }
}

/// How many bytes the shortest form of a signed number takes.
pub fn signed_width(number: i64) -> usize {
    match number {
        -0x40..=0x3F => 1,
        -0x2000..=0x1FFF => 2,
        _ => 4,
    }
}

/// A copy of bytes, zero-padded to a multiple of four.
pub fn zero_padded(alloc: Global, bytes: &[u8]) -> Result<Vec<u8>, AllocError> {
    let mut copy = bytes.to_vec(alloc)?;
    while copy.len() % 4 != 0 {
        copy.push(0)?;
    }
    Ok(copy)
}
