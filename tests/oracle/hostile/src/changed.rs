use crate::numbers::number_at;
use crate::random::Random;
use crate::encoded_root::EncodedRoot;
use std::alloc::{AllocError, Global};

/// Codes of the grammar of signatures (II.23.1.16), and the first bytes of lengths.
const CODES: [u8; 32] = [
    0, 1, 2, 3, 5, 6, 7, 8, 9, 0x0A, 0x0E, 0x0F, 0x10, 0x11, 0x12, 0x13, 0x14, 0x15, 0x16, 0x17,
    0x1A, 0x1B, 0x1D, 0x1E, 0x1F, 0x20, 0x28, 0x41, 0x45, 0x80, 0xC0, 0xE0,
];

/// A root with a change or a few near offsets that mean something, and sometimes cut off.
pub fn changed(
    alloc: Global,
    random: &mut Random,
    encoded: &EncodedRoot,
) -> Result<Vec<u8>, AllocError> {
    let mut bytes = encoded.bytes.as_slice().to_vec(alloc)?;
    for _change in 0..random.pick(&[1, 1, 1, 1, 2, 3]) {
        let mut offsets = match random.below(8) {
            0..=1 => encoded.heads.as_slice(),
            2..=5 => encoded.cells.as_slice(),
            _ => encoded.values.as_slice(),
        };
        if offsets.is_empty() {
            offsets = encoded.heads.as_slice();
        }
        if random.is_one_in(12) {
            let offset = random.offset(bytes.len());
            change_value(random, &mut bytes, offset);
        } else if random.is_one_in(4) {
            let offset = random.pick(offsets).0;
            change_value(random, &mut bytes, offset);
        } else {
            change_number(random, &mut bytes, offsets);
        }
    }
    if random.is_one_in(16) {
        let len = random.offset(bytes.len() + 1);
        bytes.truncate(len);
    }
    Ok(bytes)
}

/// Puts another byte in place of one.
pub fn change_value(random: &mut Random, bytes: &mut Vec<u8>, offset: usize) {
    let code = random.pick(&CODES);
    let any = random.byte();
    let bit = random.below(8);
    if let Some(byte) = bytes.get_mut(offset) {
        *byte = random.pick(&[code, code, any, *byte ^ 1 << bit, byte.wrapping_add(1)]);
    }
}

/// Puts another number in place of one of several.
fn change_number(random: &mut Random, bytes: &mut Vec<u8>, offsets: &[(usize, usize)]) {
    let (offset, width) = random.pick(offsets);
    let (other, other_width) = random.pick(offsets);
    let before = number_at(bytes.as_slice(), offset, width).unwrap_or(0);
    let other = number_at(bytes.as_slice(), other, other_width).unwrap_or(0);
    let number = match random.below(10) {
        0 => before.wrapping_add(1),
        1 => before.wrapping_sub(1),
        2 => before.wrapping_add(random.pick(&[2, 3, 4, 5, 8, 16, 32])),
        3 => before.wrapping_sub(random.pick(&[2, 3, 4, 5, 8, 16, 32])),
        4 => before ^ 1 << random.below(8 * width as u32),
        5 => random.below(8),
        6 => random.pick(&[0, u32::MAX]),
        7 => random.number(),
        _ => other,
    };
    let encoded = number.to_le_bytes();
    for (byte, new) in bytes.iter_mut().skip(offset).zip(encoded[..width].iter()) {
        *byte = *new;
    }
}
