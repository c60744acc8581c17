use crate::numbers::{packed_width, put_packed, signed_width, unsigned_of};
use crate::plain_signatures::DEPTH;
use crate::random::Random;
use crate::standard::{Counts, TYPE_DEF, TYPE_REF, TYPE_SPEC};
use model::SigKind;
use std::alloc::{AllocError, Global};

/// The element types that one byte encodes (II.23.1.16).
const SIMPLE: [u8; 16] = [2, 3, 4, 5, 6, 7, 8, 9, 10, 11, 12, 13, 14, 0x18, 0x19, 0x1C];

/// Numbers at the ends of the forms that they are packed in.
const NUMBERS: [u32; 9] = [
    0,
    1,
    2,
    0x7F,
    0x80,
    0x3FFF,
    0x4000,
    0x1FFF_FFFE,
    0x1FFF_FFFF,
];

/// Signed numbers at the ends of the forms that they are packed in.
const BOUNDS: [i64; 12] = [
    0,
    3,
    -3,
    0x3F,
    -0x40,
    0x40,
    -0x41,
    0x1FFF,
    -0x2000,
    0x2000,
    0x0FFF_FFFF,
    -0x1000_0000,
];

/// The shortest encoding of a signature of a kind of column, whose types are rows that are there.
pub fn made_signature(
    alloc: Global,
    random: &mut Random,
    counts: &Counts,
    kind: SigKind,
) -> Result<Vec<u8>, AllocError> {
    let mut maker = Maker {
        bytes: Vec::new(alloc),
        random: *random,
        types: [
            counts[TYPE_DEF as usize],
            counts[TYPE_REF as usize],
            counts[TYPE_SPEC as usize],
        ],
    };
    maker.signature(kind)?;
    *random = maker.random;
    Ok(maker.bytes)
}

/// A signature that is made.
#[derive(Drop)]
struct Maker {
    bytes: Vec<u8>,
    random: Random,
    /// How many rows there are of TypeDef, TypeRef and TypeSpec.
    types: [u32; 3],
}

impl Maker {
    fn code(&mut self, code: u8) -> Result<(), AllocError> {
        self.bytes.push(code)?;
        Ok(())
    }

    fn code_of(&mut self, codes: &[u8]) -> Result<(), AllocError> {
        let code = self.random.pick(codes);
        self.code(code)
    }

    fn number(&mut self, number: u32) -> Result<(), AllocError> {
        put_packed(&mut self.bytes, number, packed_width(number))
    }

    fn any_number(&mut self) -> Result<(), AllocError> {
        let number = self.random.pick(&NUMBERS);
        self.number(number)
    }

    /// How many parts something has: few, and sometimes a number that takes two bytes.
    fn count(&mut self) -> u32 {
        if self.random.is_one_in(200) {
            self.random.between(126, 130)
        } else {
            self.random.below(4)
        }
    }

    fn has_types(&self) -> bool {
        self.types != [0; 3]
    }

    /// An index of a type, of which there are some: often the first or the last of its table.
    fn index(&mut self) -> Result<(), AllocError> {
        let mut tag = self.random.offset(3);
        while self.types[tag] == 0 {
            tag = (tag + 1) % 3;
        }
        let last = self.types[tag];
        let any = self.random.between(1, last);
        let row = self.random.pick(&[1, last, any]);
        self.number(row * 4 + tag as u32)
    }

    fn modifiers(&mut self) -> Result<(), AllocError> {
        while self.has_types() && self.random.is_one_in(6) {
            self.code_of(&[0x1F, 0x20])?;
            self.index()?;
        }
        Ok(())
    }

    fn signature(&mut self, kind: SigKind) -> Result<(), AllocError> {
        match kind {
            SigKind::Field => self.field(),
            SigKind::MethodDef => self.method(DEPTH, false),
            SigKind::MemberRef if self.random.is_one_in(2) => self.field(),
            SigKind::MemberRef => self.method(DEPTH, true),
            SigKind::StandAlone => match self.random.below(4) {
                0 => self.field(),
                1 => self.method(DEPTH, true),
                _ => self.locals(),
            },
            SigKind::Property => self.property(),
            SigKind::TypeSpec => self.answer(DEPTH),
            SigKind::Instance => {
                self.code(0x0A)?;
                self.types(DEPTH)
            }
        }
    }

    fn field(&mut self) -> Result<(), AllocError> {
        self.code(6)?;
        self.slot(DEPTH)
    }

    fn locals(&mut self) -> Result<(), AllocError> {
        self.code(7)?;
        let count = self.count();
        self.number(count)?;
        for _local in 0..count {
            while self.random.is_one_in(3) {
                self.code(0x45)?;
                self.modifiers()?;
            }
            self.slot(DEPTH)?;
        }
        Ok(())
    }

    fn property(&mut self) -> Result<(), AllocError> {
        self.code_of(&[0x08, 0x28])?;
        let count = self.count();
        self.number(count)?;
        for _slot in 0..count + 1 {
            self.slot(DEPTH)?;
        }
        Ok(())
    }

    fn method(&mut self, left: u32, may_pause: bool) -> Result<(), AllocError> {
        let convention = self.random.pick(&[0, 0, 1, 2, 3, 4, 5, 5, 9]);
        let flags = self.random.pick(&[0, 0x10, 0x20, 0x30, 0x40, 0x60, 0x70]);
        self.code(convention | flags)?;
        if flags & 0x10 != 0 {
            self.any_number()?;
        }
        let count = self.count();
        self.number(count)?;
        self.answer(left)?;
        let pause = if may_pause && matches!(convention, 1 | 5) {
            self.random.below(count.saturating_add(2))
        } else {
            count
        };
        for parameter in 0..count {
            if parameter == pause {
                self.code(0x41)?;
            }
            self.slot(left)?;
        }
        Ok(())
    }

    fn answer(&mut self, left: u32) -> Result<(), AllocError> {
        if self.random.is_one_in(3) {
            self.modifiers()?;
            self.code(0x01)
        } else {
            self.slot(left)
        }
    }

    fn slot(&mut self, left: u32) -> Result<(), AllocError> {
        self.modifiers()?;
        match self.random.below(8) {
            0 => self.code(0x16),
            1 => {
                self.code(0x10)?;
                self.modifiers()?;
                self.core(left)
            }
            _ => self.core(left),
        }
    }

    fn types(&mut self, left: u32) -> Result<(), AllocError> {
        let count = self.count();
        self.number(count)?;
        for _type in 0..count {
            self.whole_type(left)?;
        }
        Ok(())
    }

    fn whole_type(&mut self, left: u32) -> Result<(), AllocError> {
        self.modifiers()?;
        self.core(left)
    }

    /// A type that nests so deep at most, and sometimes just so deep.
    fn core(&mut self, left: u32) -> Result<(), AllocError> {
        if left < 3 || self.random.is_one_in(2) {
            return self.leaf();
        }
        if self.random.is_one_in(150) {
            return self.chain(left);
        }
        // What is nested has less room, so that it ends.
        let room = left.min(5) - 1;
        match self.random.below(5) {
            0 => {
                self.code(0x0F)?;
                self.pointed(room)
            }
            1 => {
                self.code(0x1D)?;
                self.whole_type(room)
            }
            2 => {
                self.code(0x14)?;
                self.whole_type(room)?;
                self.shape()
            }
            3 if self.has_types() => {
                self.code(0x15)?;
                self.code_of(&[0x11, 0x12])?;
                self.index()?;
                self.types(room)
            }
            _ => {
                self.code(0x1B)?;
                self.method(room, true)
            }
        }
    }

    /// A type of no types inside.
    fn leaf(&mut self) -> Result<(), AllocError> {
        match self.random.below(4) {
            0 if self.has_types() => {
                self.code_of(&[0x11, 0x12])?;
                self.index()
            }
            1 => {
                self.code_of(&[0x13, 0x1E])?;
                self.any_number()
            }
            _ => self.code_of(&SIMPLE),
        }
    }

    /// A type that nests just so deep, by pointers, vectors and functions.
    fn chain(&mut self, depth: u32) -> Result<(), AllocError> {
        for _level in 1..depth {
            match self.random.below(3) {
                0 => self.code(0x0F)?,
                1 => self.code(0x1D)?,
                _ => {
                    self.code(0x1B)?;
                    self.code(0)?;
                    self.code(0)?;
                }
            }
        }
        self.leaf()
    }

    fn pointed(&mut self, left: u32) -> Result<(), AllocError> {
        self.modifiers()?;
        if self.random.is_one_in(3) {
            self.code(0x01)
        } else {
            self.core(left)
        }
    }

    fn shape(&mut self) -> Result<(), AllocError> {
        let rank = self.random.between(1, 4);
        self.number(rank)?;
        let sizes = self.random.below(rank + 1);
        self.number(sizes)?;
        for _size in 0..sizes {
            self.any_number()?;
        }
        let bounds = self.random.below(rank + 1);
        self.number(bounds)?;
        for _bound in 0..bounds {
            let bound = self.random.pick(&BOUNDS);
            let width = signed_width(bound);
            put_packed(&mut self.bytes, unsigned_of(bound, width), width)?;
        }
        Ok(())
    }
}
