use crate::signatures::blobs::{BODIES, CORES};
use schema::SigKind;
use sig_encoder::is_same;
use sig_encoder::{encode_body, encoded_len};
use sig_recogniser::recognise;
use signatures::{decode, encode};
use std::alloc::Global;
use std::process::Abort;
use std::test::Fail;

/// Bytes in their shortest encoding are decoded as a value that is shown so, encoded again, copied
/// and equal to their copy.
fn is_encoded(
    rt: &impl Abort,
    alloc: Global,
    kind: SigKind,
    bytes: &[u8],
    shown: &str,
) -> Result<(), Fail> {
    assert!(rt; recognise(bytes, kind), "{bytes:?}");
    let signature = decode(alloc, bytes, kind).expect(rt, "spelled");
    let text = format!(in alloc; "{:?}", signature.body())?;
    assert_eq!(rt; text.as_str(), shown);
    assert!(rt; signature.is_held_by(kind), "{bytes:?}");
    let encoded = encode(alloc, &signature)?;
    assert_eq!(rt; encoded.as_slice(), bytes);
    let copy = signature.copy(alloc)?;
    assert!(rt; copy == signature, "{bytes:?}");
    let text = format!(in alloc; "{:?}", copy.body())?;
    assert_eq!(rt; text.as_str(), shown);
    Ok(())
}

#[test]
fn each_type_is_encoded(rt: HostRuntime) -> Result<(), Fail> {
    for core in CORES {
        let shown = format!(in rt.alloc();
            "TypeSpec(Slot(Slot {{ mods: [], kind: Plain({}) }}))",
            core.shown
        )?;
        is_encoded(
            &rt,
            rt.alloc(),
            SigKind::TypeSpec,
            core.bytes,
            shown.as_str(),
        )?;
    }
    Ok(())
}

#[test]
fn each_signature_is_encoded(rt: HostRuntime) -> Result<(), Fail> {
    for body in BODIES {
        is_encoded(&rt, rt.alloc(), body.kind, body.bytes, body.shown)?;
    }
    Ok(())
}

/// The calls below those of signatures answer the same.
#[test]
fn bodies_are_measured_and_copied(rt: HostRuntime) -> Result<(), Fail> {
    for blob in BODIES {
        let signature = decode(rt.alloc(), blob.bytes, blob.kind).expect(&rt, "spelled");
        let body = signature.body();
        assert_eq!(rt; encoded_len(body), Some(blob.bytes.len()));
        let copy = signature.copy(rt.alloc())?;
        assert!(rt; is_same(copy.body(), body), "{body:?}");
        let encoded = encode_body(rt.alloc(), copy.body()).expect(&rt, "memory");
        assert_eq!(rt; encoded.as_slice(), blob.bytes);
    }
    Ok(())
}

/// Types are equal if and only if their bytes are: none is twice in the table.
#[test]
fn other_types_are_not_equal(rt: HostRuntime) {
    for (offset, blob) in CORES.iter().enumerate() {
        let one = decode(rt.alloc(), blob.bytes, SigKind::TypeSpec).expect(&rt, "spelled");
        for (other_offset, other) in CORES.iter().enumerate() {
            let other = decode(rt.alloc(), other.bytes, SigKind::TypeSpec).expect(&rt, "spelled");
            assert_eq!(rt; one == other, offset == other_offset, "{one:?} {other:?}");
        }
    }
}

/// Signatures are equal if and only if they are shown alike, whatever holds them.
#[test]
fn other_signatures_are_not_equal(rt: HostRuntime) {
    for (offset, blob) in BODIES.iter().enumerate() {
        let one = decode(rt.alloc(), blob.bytes, blob.kind).expect(&rt, "spelled");
        for (other_offset, other) in BODIES.iter().enumerate() {
            let other = decode(rt.alloc(), other.bytes, other.kind).expect(&rt, "spelled");
            assert_eq!(rt; one == other, offset == other_offset, "{one:?} {other:?}");
        }
    }
}

/// A number, a count and an index that stand in longer forms than they need.
#[test]
fn longer_encodings_are_shortened(rt: HostRuntime) -> Result<(), Fail> {
    for (long, short) in [
        (
            [0x15, 0x12, 0x80, 0x05, 0x01, 0x08].as_slice(),
            [0x15, 0x12, 0x05, 0x01, 0x08].as_slice(),
        ),
        (
            [0x15, 0x12, 0x05, 0xC0, 0x00, 0x00, 0x01, 0x08].as_slice(),
            [0x15, 0x12, 0x05, 0x01, 0x08].as_slice(),
        ),
        ([0x13, 0x80, 0x07].as_slice(), [0x13, 0x07].as_slice()),
        (
            [0x14, 0x08, 0x01, 0x00, 0x01, 0xC0, 0x00, 0x00, 0x06].as_slice(),
            [0x14, 0x08, 0x01, 0x00, 0x01, 0x06].as_slice(),
        ),
    ] {
        let signature = decode(rt.alloc(), long, SigKind::TypeSpec).expect(&rt, "spelled");
        let encoded = encode(rt.alloc(), &signature)?;
        assert_eq!(rt; encoded.as_slice(), short);
    }
    Ok(())
}
