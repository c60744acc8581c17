use crate::numbers::{packed_at, packed_width, put_packed, signed_of, signed_width, unsigned_of};
use crate::random::Random;
use crate::standard::{TYPE_DEF, TYPE_REF, TYPE_SPEC, Table};
use model::SigKind;
use std::alloc::{AllocError, AllocFailed, Global};

/// How deep types nest at most.
pub const DEPTH: u32 = 128;

/// Why bytes are not encoded again.
#[derive(Clone, Copy, Debug, PartialEq, Eq)]
pub enum NotEncoded {
    /// They encode nothing.
    Bad,
    /// Memory was refused.
    Memory,
}

impl From<AllocError> for NotEncoded {
    fn from(_: AllocError) -> NotEncoded {
        NotEncoded::Memory
    }
}

impl<T: Drop> From<AllocFailed<T>> for NotEncoded {
    fn from(_: AllocFailed<T>) -> NotEncoded {
        NotEncoded::Memory
    }
}

/// A signature that was encoded again.
#[derive(Debug, Drop)]
pub struct Encoding {
    /// The bytes.
    pub bytes: Vec<u8>,
    /// The types that it names, in their order.
    pub indexes: Vec<(Table, u32)>,
}

/// Reads a signature of a kind of column and encodes it again (II.23.2): with shortest numbers, or in forms that
/// are as long as chance has them.
pub fn reencoded(
    alloc: Global,
    blob: &[u8],
    kind: SigKind,
    forms: Option<Random>,
) -> Result<Encoding, NotEncoded> {
    let mut walk = Walk {
        blob,
        offset: 0,
        bytes: Vec::new(alloc),
        indexes: Vec::new(alloc),
        forms,
    };
    walk.signature(kind)?;
    if walk.offset < blob.len() {
        return Err(NotEncoded::Bad);
    }
    Ok(Encoding {
        bytes: walk.bytes,
        indexes: walk.indexes,
    })
}

/// A walk over a signature.
#[derive(Drop)]
struct Walk<'a> {
    blob: &'a [u8],
    offset: usize,
    bytes: Vec<u8>,
    indexes: Vec<(Table, u32)>,
    forms: Option<Random>,
}

impl Walk<'_> {
    /// The next byte, where it stands.
    fn next(&self) -> Option<u8> {
        self.blob.get(self.offset).copied()
    }

    /// Goes past a byte.
    fn code(&mut self) -> Result<u8, NotEncoded> {
        let byte = self.next().ok_or(NotEncoded::Bad)?;
        self.bytes.push(byte)?;
        self.offset += 1;
        Ok(byte)
    }

    /// Whether the next byte is this one, and past it then.
    fn takes(&mut self, code: u8) -> Result<bool, NotEncoded> {
        if self.next() != Some(code) {
            return Ok(false);
        }
        self.code()?;
        Ok(true)
    }

    /// Goes past a byte that has to be this one.
    fn expect_code(&mut self, code: u8) -> Result<(), NotEncoded> {
        if self.takes(code)? {
            Ok(())
        } else {
            Err(NotEncoded::Bad)
        }
    }

    /// How many bytes a number is written in that needs `least`.
    fn form(&mut self, least: usize) -> usize {
        let Some(random) = &mut self.forms else {
            return least;
        };
        if random.is_one_in(4) {
            random.pick(&[1, 2, 4]).max(least)
        } else {
            least
        }
    }

    fn number(&mut self) -> Result<u32, NotEncoded> {
        let (number, width) = packed_at(self.blob, self.offset).ok_or(NotEncoded::Bad)?;
        let form = self.form(packed_width(number));
        put_packed(&mut self.bytes, number, form)?;
        self.offset += width;
        Ok(number)
    }

    fn signed(&mut self) -> Result<(), NotEncoded> {
        let (number, width) = packed_at(self.blob, self.offset).ok_or(NotEncoded::Bad)?;
        let number = signed_of(number, width);
        let form = self.form(signed_width(number));
        put_packed(&mut self.bytes, unsigned_of(number, form), form)?;
        self.offset += width;
        Ok(())
    }

    /// An index of a type: its row, and a tag of two bits (II.23.2.8).
    fn index(&mut self) -> Result<(), NotEncoded> {
        let number = self.number()?;
        let table = match number % 4 {
            0 => TYPE_DEF,
            1 => TYPE_REF,
            2 => TYPE_SPEC,
            _ => return Err(NotEncoded::Bad),
        };
        self.indexes.push((table, number / 4))?;
        Ok(())
    }

    /// Modifiers, and among them PINNED where it may stand.
    fn modifiers(&mut self, may_pin: bool) -> Result<(), NotEncoded> {
        while let Some(code) = self.next() {
            match code {
                0x1F | 0x20 => {
                    self.code()?;
                    self.index()?;
                }
                0x45 if may_pin => {
                    self.code()?;
                }
                _ => break,
            }
        }
        Ok(())
    }

    fn signature(&mut self, kind: SigKind) -> Result<(), NotEncoded> {
        let first = self.next();
        match (kind, first) {
            (SigKind::Field, _) | (SigKind::MemberRef | SigKind::StandAlone, Some(6)) => {
                self.expect_code(6)?;
                self.slot(DEPTH)
            }
            (SigKind::StandAlone, Some(7)) => self.locals(),
            (SigKind::MethodDef, _) => self.method(DEPTH, false),
            (SigKind::MemberRef | SigKind::StandAlone, _) => self.method(DEPTH, true),
            (SigKind::Property, _) => self.property(),
            (SigKind::TypeSpec, _) => self.answer(DEPTH),
            (SigKind::Instance, _) => {
                self.expect_code(0x0A)?;
                self.types(DEPTH)
            }
        }
    }

    fn locals(&mut self) -> Result<(), NotEncoded> {
        self.expect_code(7)?;
        for _local in 0..self.number()? {
            self.modifiers(true)?;
            self.slot_after_modifiers(DEPTH)?;
        }
        Ok(())
    }

    fn property(&mut self) -> Result<(), NotEncoded> {
        if !matches!(self.code()?, 0x08 | 0x28) {
            return Err(NotEncoded::Bad);
        }
        let count = self.number()?;
        self.slot(DEPTH)?;
        for _parameter in 0..count {
            self.slot(DEPTH)?;
        }
        Ok(())
    }

    fn method(&mut self, left: u32, may_pause: bool) -> Result<(), NotEncoded> {
        let first = self.code()?;
        let convention = first & 0x0F;
        if first & 0x80 != 0 || !matches!(convention, 0..=5 | 9) {
            return Err(NotEncoded::Bad);
        }
        if first & 0x10 != 0 {
            self.number()?;
        }
        let count = self.number()?;
        self.answer(left)?;
        let mut may_pause = may_pause && matches!(convention, 1 | 5);
        for _parameter in 0..count {
            if may_pause && self.takes(0x41)? {
                may_pause = false;
            }
            self.slot(left)?;
        }
        Ok(())
    }

    /// What a method answers: VOID or a slot.
    fn answer(&mut self, left: u32) -> Result<(), NotEncoded> {
        self.modifiers(false)?;
        if left > 0 && self.takes(0x01)? {
            return Ok(());
        }
        self.slot_after_modifiers(left)
    }

    fn slot(&mut self, left: u32) -> Result<(), NotEncoded> {
        self.modifiers(false)?;
        self.slot_after_modifiers(left)
    }

    fn slot_after_modifiers(&mut self, left: u32) -> Result<(), NotEncoded> {
        if left > 0 && self.takes(0x16)? {
            return Ok(());
        }
        if self.takes(0x10)? {
            self.modifiers(false)?;
        }
        self.core(left)
    }

    fn types(&mut self, left: u32) -> Result<(), NotEncoded> {
        for _argument in 0..self.number()? {
            self.whole_type(left)?;
        }
        Ok(())
    }

    fn whole_type(&mut self, left: u32) -> Result<(), NotEncoded> {
        self.modifiers(false)?;
        self.core(left)
    }

    /// A type after its modifiers, which nests at most `left` levels.
    fn core(&mut self, left: u32) -> Result<(), NotEncoded> {
        if left == 0 {
            return Err(NotEncoded::Bad);
        }
        match self.code()? {
            0x02..=0x0E | 0x18 | 0x19 | 0x1C => Ok(()),
            0x0F => self.pointed(left - 1),
            0x11 | 0x12 => self.index(),
            0x13 | 0x1E => {
                self.number()?;
                Ok(())
            }
            0x14 => {
                self.whole_type(left - 1)?;
                self.shape()
            }
            0x15 => {
                if !matches!(self.code()?, 0x11 | 0x12) {
                    return Err(NotEncoded::Bad);
                }
                self.index()?;
                self.types(left - 1)
            }
            0x1B => self.method(left - 1, true),
            0x1D => self.whole_type(left - 1),
            _ => Err(NotEncoded::Bad),
        }
    }

    fn pointed(&mut self, left: u32) -> Result<(), NotEncoded> {
        self.modifiers(false)?;
        if left > 0 && self.takes(0x01)? {
            return Ok(());
        }
        self.core(left)
    }

    fn shape(&mut self) -> Result<(), NotEncoded> {
        let rank = self.number()?;
        let sizes = self.number()?;
        if rank == 0 || sizes > rank {
            return Err(NotEncoded::Bad);
        }
        for _size in 0..sizes {
            self.number()?;
        }
        let bounds = self.number()?;
        if bounds > rank {
            return Err(NotEncoded::Bad);
        }
        for _bound in 0..bounds {
            self.signed()?;
        }
        Ok(())
    }
}
