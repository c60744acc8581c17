use one_refusal::{Run, Stop, kept};
use packed::{put_signed, put_unsigned};

/// The encodings of the numbers below, one after another.
const ENCODED: [u8; 18] = [
    0x05, 0x80, 0x80, 0xC0, 0x00, 0x40, 0x00, 0x06, 0x7B, 0x80, 0x80, 0x80, 0x01, 0xC0, 0x00, 0x00,
    0x01, 0x00,
];

/// Puts a number, again where memory was refused.
fn unsigned(run: &Run, bytes: &mut Vec<u8>, number: u32) -> Result<(), Stop> {
    let len = bytes.len();
    if put_unsigned(bytes, number).is_ok() {
        return Ok(());
    }
    kept(bytes.len() == len, "a refused number is not put")?;
    run.again(put_unsigned(bytes, number))
}

/// Puts a signed number, again where memory was refused.
fn signed(run: &Run, bytes: &mut Vec<u8>, number: i32) -> Result<(), Stop> {
    let len = bytes.len();
    if put_signed(bytes, number).is_ok() {
        return Ok(());
    }
    kept(bytes.len() == len, "a refused number is not put")?;
    run.again(put_signed(bytes, number))
}

/// The encodings of some numbers are those, each put again when memory was refused.
pub fn encoded(run: &Run) -> Result<(), Stop> {
    let mut bytes = Vec::new(run.alloc);
    unsigned(run, &mut bytes, 5)?;
    unsigned(run, &mut bytes, 0x80)?;
    unsigned(run, &mut bytes, 0x4000)?;
    signed(run, &mut bytes, 3)?;
    signed(run, &mut bytes, -3)?;
    signed(run, &mut bytes, 64)?;
    signed(run, &mut bytes, -8192)?;
    signed(run, &mut bytes, -268_435_456)?;
    signed(run, &mut bytes, 0)?;
    kept(
        bytes.as_slice() == ENCODED.as_slice(),
        "the encodings are those",
    )
}
