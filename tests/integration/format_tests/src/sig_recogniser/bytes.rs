use crate::nested::nested;
use crate::signatures::blobs::REFUSED;
use sig_recogniser::{SigKind, recognise};
use signatures::{SigError, decode};
use std::test::Fail;

/// What the grammar does not encode is not recognised, and is bad even with ample memory.
#[test]
fn what_is_not_encoded_is_bad(rt: HostRuntime) {
    for blob in REFUSED {
        assert!(rt;
            !recognise(blob.bytes, blob.kind),
            "{:?} {:?}",
            blob.kind,
            blob.bytes
        );
        let found = decode(rt.alloc(), blob.bytes, blob.kind);
        assert_eq!(rt;
            found.err(),
            Some(SigError::Bad),
            "{:?} {:?}",
            blob.kind,
            blob.bytes
        );
    }
}

/// Vectors, pointers, functions and instances of one another.
#[test]
fn types_nest_at_most_128_deep(rt: HostRuntime) -> Result<(), Fail> {
    for outer in [
        [0x1D].as_slice(),
        [0x0F].as_slice(),
        [0x1B, 0x00, 0x00].as_slice(),
        [0x15, 0x12, 0x05, 0x01].as_slice(),
    ] {
        let deepest = nested(rt.alloc(), outer, 127)?;
        assert!(rt; recognise(deepest.as_slice(), SigKind::TypeSpec));
        assert!(rt; decode(rt.alloc(), deepest.as_slice(), SigKind::TypeSpec).is_ok());
        let deeper = nested(rt.alloc(), outer, 128)?;
        assert!(rt; !recognise(deeper.as_slice(), SigKind::TypeSpec));
        let found = decode(rt.alloc(), deeper.as_slice(), SigKind::TypeSpec);
        assert_eq!(rt; found.err(), Some(SigError::Bad));
    }
    Ok(())
}
