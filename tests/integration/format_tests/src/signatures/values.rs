use schema::{TableId, Token};
use signatures::{Core, Element, MethodSig, Ret, Shape, SigBody, Slot, SlotKind, TypeSig};
use std::alloc::Global;
use std::test::Fail;

/// A 4-byte integer.
pub fn integer() -> Core {
    Core::Simple(Element::I4)
}

/// A type without modifiers.
pub fn plain(alloc: Global, core: Core) -> TypeSig {
    TypeSig {
        mods: Vec::new(alloc),
        core,
    }
}

/// A parameter, a field or a result without modifiers.
pub fn slot(alloc: Global, core: Core) -> Slot {
    Slot {
        mods: Vec::new(alloc),
        kind: SlotKind::Plain(core),
    }
}

/// A type specification without modifiers.
pub fn specified(alloc: Global, core: Core) -> SigBody {
    SigBody::TypeSpec(Ret::Slot(slot(alloc, core)))
}

/// A row of TypeRef.
pub fn type_ref(row: u32) -> Token {
    Token {
        table: TableId::TypeRef,
        row,
    }
}

/// A method of a kind without result, and its one parameter.
pub fn method(alloc: Global, kind: u8, sentinel: Option<u32>) -> Result<MethodSig, Fail> {
    Ok(MethodSig {
        kind,
        this: false,
        explicit: false,
        generic: None,
        ret: Ret::Void(Vec::new(alloc)),
        params: vec![in alloc; slot(alloc, integer())]?,
        sentinel,
    })
}

/// An array of integers.
pub fn array(alloc: Global, rank: u32, sizes: &[u32], low: &[i32]) -> Result<SigBody, Fail> {
    let of = Box::new(alloc, plain(alloc, integer()))?;
    let shape = Shape {
        rank,
        sizes: sizes.to_vec(alloc)?,
        low: low.to_vec(alloc)?,
    };
    Ok(specified(alloc, Core::Array(of, shape)))
}

/// A 4-byte integer in `count` arrays of one dimension.
pub fn vectors(alloc: Global, count: usize) -> Result<SigBody, Fail> {
    let mut core = integer();
    for _ in 0..count {
        core = Core::Vector(Box::new(alloc, plain(alloc, core))?);
    }
    Ok(specified(alloc, core))
}
