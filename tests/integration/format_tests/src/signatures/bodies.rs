use crate::signatures::values::{array, integer, method, plain, specified, type_ref, vectors};
use schema::{TableId, Token};
use sig_encoder::{encode_into, encoded_len};
use signatures::{Core, SigBody, Signature};
use std::process::Abort;
use std::test::Fail;

/// No bytes encode a body: it is returned.
fn is_returned(rt: &impl Abort, body: SigBody) {
    assert_eq!(rt; encoded_len(&body), None);
    assert!(rt; Signature::new(body).is_err());
}

/// This number of bytes encodes a body.
fn has_length(rt: &impl Abort, body: SigBody, len: usize) {
    assert_eq!(rt; encoded_len(&body), Some(len));
    assert!(rt; Signature::new(body).is_ok());
}

/// Kinds that there are not; SENTINEL after the last parameter, and in a method of the default kind.
#[test]
fn methods_of_no_kind_are_returned(rt: HostRuntime) -> Result<(), Fail> {
    for kind in [6, 7, 8, 10, 15, 16, 255] {
        is_returned(&rt, SigBody::Method(method(rt.alloc(), kind, None)?));
    }
    for kind in [0, 1, 2, 3, 4, 5, 9] {
        has_length(&rt, SigBody::Method(method(rt.alloc(), kind, None)?), 4);
    }
    for kind in [0, 2, 3, 4, 9] {
        is_returned(&rt, SigBody::Method(method(rt.alloc(), kind, Some(0))?));
    }
    for kind in [1, 5] {
        has_length(&rt, SigBody::Method(method(rt.alloc(), kind, Some(0))?), 5);
        is_returned(&rt, SigBody::Method(method(rt.alloc(), kind, Some(1))?));
    }
    Ok(())
}

/// Ranks, sizes and low bounds on both sides of their limits.
#[test]
fn shapes_of_no_array_are_returned(rt: HostRuntime) -> Result<(), Fail> {
    for (rank, sizes, low) in [
        (0, [].as_slice(), [].as_slice()),
        (1, [1, 2].as_slice(), [].as_slice()),
        (1, [].as_slice(), [1, 2].as_slice()),
        (0x2000_0000, [].as_slice(), [].as_slice()),
        (1, [0x2000_0000].as_slice(), [].as_slice()),
        (1, [].as_slice(), [-0x1000_0001].as_slice()),
        (1, [].as_slice(), [0x1000_0000].as_slice()),
    ] {
        is_returned(&rt, array(rt.alloc(), rank, sizes, low)?);
    }
    has_length(
        &rt,
        array(rt.alloc(), 1, &[0x1FFF_FFFF], &[-0x1000_0000])?,
        13,
    );
    has_length(&rt, array(rt.alloc(), 2, &[0, 1], &[0xFFF_FFFF, 0])?, 12);
    Ok(())
}

/// Numbers and rows that need too many bits, an index of another table, and types that nest 129 deep.
#[test]
fn types_that_nothing_encodes_are_returned(rt: HostRuntime) -> Result<(), Fail> {
    let alloc = rt.alloc();
    is_returned(&rt, specified(alloc, Core::Var(0x2000_0000)));
    has_length(&rt, specified(alloc, Core::MVar(0x1FFF_FFFF)), 5);
    is_returned(&rt, specified(alloc, Core::Class(type_ref(0x800_0000))));
    has_length(&rt, specified(alloc, Core::Value(type_ref(0x7FF_FFFF))), 5);
    let module = Token {
        table: TableId::Module,
        row: 1,
    };
    is_returned(&rt, specified(alloc, Core::Class(module)));
    has_length(&rt, vectors(alloc, 127)?, 128);
    is_returned(&rt, vectors(alloc, 128)?);
    Ok(())
}

/// A body of 1,000 nested types is built, returned, and dropped in the stack that there is.
#[test]
fn types_that_nest_deep_are_returned_and_dropped(rt: HostRuntime) -> Result<(), Fail> {
    let refused = Signature::new(vectors(rt.alloc(), 1000)?);
    assert!(rt; refused.is_err());
    drop(refused);
    Ok(())
}

/// An encoding follows the bytes that there are, if there is room for it.
#[test]
fn encodings_follow_bytes(rt: HostRuntime) -> Result<(), Fail> {
    let core = Core::Instance {
        value: true,
        of: type_ref(1),
        args: vec![in rt.alloc(); plain(rt.alloc(), integer())]?,
    };
    let signature = Signature::new(specified(rt.alloc(), core)).expect(&rt, "spelled");
    let count = encoded_len(signature.body()).unwrap();
    let mut bytes = Vec::with_capacity(rt.alloc(), count + 1)?;
    bytes.push(0xAA)?;
    let encoded = encode_into(bytes, signature.body());
    assert_eq!(rt;
        encoded.as_slice(),
        [0xAA, 0x15, 0x11, 0x05, 0x01, 0x08].as_slice()
    );
    Ok(())
}
