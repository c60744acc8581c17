use one_refusal::{Run, Stop, kept};
use rows::put_row;
use schema::{Layout, TableId};

/// The numbers of a row of Module (II.22.30): its name and its GUID are the first of their heaps.
const MODULE: [u32; 5] = [0, 1, 1, 0, 0];

/// A byte, and the row where heap indexes take two bytes.
const AFTER_A_BYTE: [u8; 11] = [
    0xFF, 0x00, 0x00, 0x01, 0x00, 0x01, 0x00, 0x00, 0x00, 0x00, 0x00,
];

/// A row of Module after a byte, put again when memory was refused.
pub fn module_after_a_byte(run: &Run) -> Result<(), Stop> {
    let layout = Layout::of(&[1; 45], 0);
    let mut bytes = Vec::from_slice(run.alloc, &[0xFF])?;
    if put_row(&mut bytes, &layout, TableId::Module, &MODULE).is_err() {
        kept(
            bytes.as_slice() == [0xFF].as_slice(),
            "a refused row is not put",
        )?;
        run.again(put_row(&mut bytes, &layout, TableId::Module, &MODULE))?;
    }
    kept(
        bytes.as_slice() == AFTER_A_BYTE.as_slice(),
        "the bytes of the row are those",
    )
}
