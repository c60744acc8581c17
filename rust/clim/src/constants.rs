//! The values of constants (II.22.9, II.23.1.16).

use crate::rows::Constant;

/// The value of a constant, by its type (II.23.1.16).
#[derive(Clone, Debug, PartialEq)]
pub enum ConstantValue<'a> {
    /// A boolean.
    Bool(bool),
    /// A UTF-16 unit.
    Char(u16),
    /// A signed integer of 8, 16, 32 or 64 bits.
    Int(i64),
    /// An unsigned integer of 8, 16, 32 or 64 bits.
    Uint(u64),
    /// A number of 32 bits.
    Float(f32),
    /// A number of 64 bits.
    Double(f64),
    /// The UTF-16 units of a string, which need not be valid UTF-16.
    String(Vec<u16>),
    /// A null reference.
    Null,
    /// Bytes that are no value of the type.
    Malformed(&'a [u8]),
}

/// The types of constants.
mod kinds {
    pub const BOOLEAN: u32 = 0x02;
    pub const CHAR: u32 = 0x03;
    pub const I1: u32 = 0x04;
    pub const U1: u32 = 0x05;
    pub const I2: u32 = 0x06;
    pub const U2: u32 = 0x07;
    pub const I4: u32 = 0x08;
    pub const U4: u32 = 0x09;
    pub const I8: u32 = 0x0A;
    pub const U8: u32 = 0x0B;
    pub const R4: u32 = 0x0C;
    pub const R8: u32 = 0x0D;
    pub const STRING: u32 = 0x0E;
    pub const CLASS: u32 = 0x12;
}

/// The UTF-16 units of bytes; `None` if one is left.
fn units(bytes: &[u8]) -> Option<Vec<u16>> {
    let pairs = bytes.chunks_exact(2);
    let whole = pairs.remainder().is_empty();
    whole.then(|| pairs.map(|it| u16::from_le_bytes([it[0], it[1]])).collect())
}

impl<'a> Constant<'a> {
    /// The value of the constant, by its type (II.23.1.16).
    pub fn typed_value(&self) -> ConstantValue<'a> {
        self.well_formed().unwrap_or(ConstantValue::Malformed(self.value))
    }

    /// The same; `None` if the bytes are no value of the type.
    fn well_formed(&self) -> Option<ConstantValue<'a>> {
        let bytes = self.value;
        Some(match self.kind {
            kinds::BOOLEAN if bytes == [0] || bytes == [1] => ConstantValue::Bool(bytes == [1]),
            kinds::CHAR => ConstantValue::Char(u16::from_le_bytes(bytes.try_into().ok()?)),
            kinds::I1 => ConstantValue::Int(i8::from_le_bytes(bytes.try_into().ok()?).into()),
            kinds::U1 => ConstantValue::Uint(u8::from_le_bytes(bytes.try_into().ok()?).into()),
            kinds::I2 => ConstantValue::Int(i16::from_le_bytes(bytes.try_into().ok()?).into()),
            kinds::U2 => ConstantValue::Uint(u16::from_le_bytes(bytes.try_into().ok()?).into()),
            kinds::I4 => ConstantValue::Int(i32::from_le_bytes(bytes.try_into().ok()?).into()),
            kinds::U4 => ConstantValue::Uint(u32::from_le_bytes(bytes.try_into().ok()?).into()),
            kinds::I8 => ConstantValue::Int(i64::from_le_bytes(bytes.try_into().ok()?)),
            kinds::U8 => ConstantValue::Uint(u64::from_le_bytes(bytes.try_into().ok()?)),
            kinds::R4 => ConstantValue::Float(f32::from_le_bytes(bytes.try_into().ok()?)),
            kinds::R8 => ConstantValue::Double(f64::from_le_bytes(bytes.try_into().ok()?)),
            kinds::STRING => ConstantValue::String(units(bytes)?),
            kinds::CLASS if bytes == [0; 4] => ConstantValue::Null,
            _ => return None,
        })
    }
}
