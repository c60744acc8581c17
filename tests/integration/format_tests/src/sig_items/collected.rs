use schema::{TableId, Token};
use sig_items::{Item, Items, SigKind, put_item};
use sig_grammar::Modifier;
use std::alloc::Global;
use std::test::Fail;

/// The items of a blob; `None` if it encodes nothing in a column of this kind.
pub fn reported(alloc: Global, bytes: &[u8], kind: SigKind) -> Result<Option<Vec<Item>>, Fail> {
    match Items::of(bytes, kind) {
        Some(items) => Ok(Some(items.collect(alloc)?)),
        None => Ok(None),
    }
}

/// The bytes of items, one after another.
pub fn written(alloc: Global, items: &[Item]) -> Result<Vec<u8>, Fail> {
    let mut bytes = Vec::new(alloc);
    for item in items {
        put_item(&mut bytes, *item)?;
    }
    Ok(bytes)
}

/// The first row of TypeRef.
pub const FIRST: Token = Token {
    table: TableId::TypeRef,
    row: 1,
};

/// The second row of TypeRef.
pub const SECOND: Token = Token {
    table: TableId::TypeRef,
    row: 2,
};

/// A modifier that must be understood, of the first row of TypeRef.
pub const REQUIRED_FIRST: Item = Item::Modifier(Modifier {
    required: true,
    of: FIRST,
});

/// A modifier that must be understood, of the second row of TypeRef.
pub const REQUIRED_SECOND: Item = Item::Modifier(Modifier {
    required: true,
    of: SECOND,
});

/// A modifier that may be passed over, of the first row of TypeRef.
pub const OPTIONAL_FIRST: Item = Item::Modifier(Modifier {
    required: false,
    of: FIRST,
});

/// A modifier that may be passed over, of the second row of TypeRef.
pub const OPTIONAL_SECOND: Item = Item::Modifier(Modifier {
    required: false,
    of: SECOND,
});
