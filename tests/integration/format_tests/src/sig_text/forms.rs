use crate::sig_text::names::shown;
use sig_text::SigKind;
use std::test::Fail;

/// A type, as a TypeSpec of it alone, and its text.
type Type = (&'static [u8], &'static str);

/// Each element type (II.23.1.16) and each form of a type (II.23.2.12).
const TYPES: [Type; 53] = [
    (&[0x02], "bool"),
    (&[0x03], "char"),
    (&[0x04], "int8"),
    (&[0x05], "unsigned int8"),
    (&[0x06], "int16"),
    (&[0x07], "unsigned int16"),
    (&[0x08], "int32"),
    (&[0x09], "unsigned int32"),
    (&[0x0A], "int64"),
    (&[0x0B], "unsigned int64"),
    (&[0x0C], "float32"),
    (&[0x0D], "float64"),
    (&[0x0E], "string"),
    (&[0x18], "native int"),
    (&[0x19], "native unsigned int"),
    (&[0x1C], "object"),
    (&[0x01], "void"),
    (&[0x16], "typedref"),
    (&[0x1F, 0x09, 0x01], "void modreq(r2)"),
    (&[0x10, 0x08], "int32&"),
    (
        &[0x1F, 0x05, 0x10, 0x20, 0x09, 0x08],
        "int32 modopt(r2)& modreq(r1)",
    ),
    (&[0x12, 0x05], "class r1"),
    (&[0x12, 0x80, 0x06], "class s1"),
    (&[0x11, 0x08], "valuetype d2"),
    (&[0x13, 0x03], "!3"),
    (&[0x1E, 0x81, 0x00], "!!256"),
    (&[0x0F, 0x01], "void*"),
    (&[0x0F, 0x0F, 0x08], "int32**"),
    (
        &[0x0F, 0x1F, 0x05, 0x20, 0x09, 0x02],
        "bool modopt(r2) modreq(r1)*",
    ),
    (&[0x1D, 0x0E], "string[]"),
    (&[0x1D, 0x1F, 0x05, 0x1D, 0x0E], "string[] modreq(r1)[]"),
    (&[0x14, 0x08, 0x01, 0x00, 0x00], "int32[...]"),
    (&[0x14, 0x08, 0x02, 0x00, 0x00], "int32[,]"),
    (&[0x14, 0x08, 0x02, 0x00, 0x01, 0x00], "int32[0...,]"),
    // Two of the standard's own (II.23.2.13).
    (&[0x14, 0x08, 0x07, 0x00, 0x00], "int32[,,,,,,]"),
    (
        &[0x14, 0x08, 0x02, 0x02, 0x02, 0x03, 0x02, 0x02, 0x0C],
        "int32[1...2,6...8]",
    ),
    (&[0x14, 0x08, 0x01, 0x01, 0x07, 0x00], "int32[7]"),
    (
        &[0x14, 0x0D, 0x03, 0x02, 0x03, 0x05, 0x03, 0x7B, 0x00, 0x08],
        "float64[-3...-1,0...4,4...]",
    ),
    (
        &[
            0x14, 0x14, 0x08, 0x01, 0x01, 0x07, 0x00, 0x01, 0x00, 0x01, 0x02,
        ],
        "int32[7][1...]",
    ),
    // Of more than 32 dimensions those without a size or a lower bound are not written.
    (
        &[0x14, 0x08, 0x20, 0x00, 0x00],
        "int32[,,,,,,,,,,,,,,,,,,,,,,,,,,,,,,,]",
    ),
    (&[0x14, 0x08, 0x21, 0x00, 0x00], "int32[,... rank 33]"),
    (&[0x14, 0x08, 0x21, 0x01, 0x05, 0x00], "int32[5,... rank 33]"),
    (
        &[0x14, 0x08, 0x28, 0x01, 0x05, 0x03, 0x00, 0x02, 0x04],
        "int32[0...4,1...,2...,... rank 40]",
    ),
    (
        &[0x14, 0x08, 0xDF, 0xFF, 0xFF, 0xFF, 0x00, 0x00],
        "int32[,... rank 536870911]",
    ),
    (
        &[
            0x14, 0x08, 0x21, 0x21, 1, 1, 1, 1, 1, 1, 1, 1, 1, 1, 1, 1, 1, 1, 1, 1, 1, 1, 1, 1, 1,
            1, 1, 1, 1, 1, 1, 1, 1, 1, 1, 1, 7, 0x00,
        ],
        "int32[1,1,1,1,1,1,1,1,1,1,1,1,1,1,1,1,1,1,1,1,1,1,1,1,1,1,1,1,1,1,1,1,7]",
    ),
    (&[0x15, 0x11, 0x05, 0x00], "valuetype r1<>"),
    (
        &[
            0x15, 0x12, 0x05, 0x03, 0x08, 0x15, 0x11, 0x09, 0x01, 0x0E, 0x13, 0x00,
        ],
        "class r1<int32, valuetype r2<string>, !0>",
    ),
    (&[0x1B, 0x00, 0x00, 0x01], "method void *()"),
    (&[0x1B, 0x20, 0x00, 0x08], "method instance int32 *()"),
    (
        &[0x1D, 0x1B, 0x05, 0x02, 0x08, 0x0E, 0x41, 0x10, 0x0C],
        "method vararg int32 *(string, ..., float32&)[]",
    ),
    (
        &[0x1B, 0x03, 0x00, 0x08],
        "method unmanaged thiscall int32 *()",
    ),
    (
        &[0x1B, 0x04, 0x00, 0x08],
        "method unmanaged fastcall int32 *()",
    ),
    (&[0x1B, 0x09, 0x00, 0x08], "method unmanaged int32 *()"),
];

#[test]
fn each_form_of_a_type_is_shown(rt: HostRuntime) -> Result<(), Fail> {
    for (bytes, text) in TYPES {
        let shown = shown(rt.alloc(), bytes, SigKind::TypeSpec)?;
        assert_eq!(rt; shown.as_str(), text);
    }
    Ok(())
}

/// A column's kind, a signature in it, and its text.
type Body = (SigKind, &'static [u8], &'static str);

/// Each kind of a signature (II.23.2.1 to II.23.2.6, II.23.2.15), and bytes that encode nothing.
const BODIES: [Body; 14] = [
    (SigKind::Field, &[0x06, 0x08], "int32"),
    (
        SigKind::MethodDef,
        &[0x20, 0x02, 0x01, 0x08, 0x1D, 0x0E],
        "method instance void *(int32, string[])",
    ),
    (
        SigKind::MethodDef,
        &[
            0x70, 0x02, 0x03, 0x1F, 0x09, 0x01, 0x20, 0x05, 0x08, 0x10, 0x0C, 0x16,
        ],
        "method instance explicit void modreq(r2) *<[2]>(int32 modopt(r1), float32&, typedref)",
    ),
    (
        SigKind::MethodDef,
        &[0x02, 0x00, 0x08],
        "method unmanaged stdcall int32 *()",
    ),
    (
        SigKind::StandAlone,
        &[0x01, 0x03, 0x01, 0x08, 0x0E, 0x41, 0x0C],
        "method unmanaged cdecl void *(int32, string, ..., float32)",
    ),
    (
        SigKind::MemberRef,
        &[0x05, 0x03, 0x01, 0x41, 0x08, 0x0E, 0x0C],
        "method vararg void *(..., int32, string, float32)",
    ),
    (SigKind::MemberRef, &[0x06, 0x12, 0x05], "class r1"),
    (SigKind::Property, &[0x28, 0x00, 0x08], "instance int32 ()"),
    (
        SigKind::Property,
        &[0x08, 0x02, 0x0E, 0x08, 0x10, 0x0D],
        "string (int32, float64&)",
    ),
    (SigKind::StandAlone, &[0x07, 0x00], "()"),
    (
        SigKind::StandAlone,
        &[
            0x07, 0x03, 0x08, 0x45, 0x10, 0x08, 0x1F, 0x09, 0x45, 0x20, 0x05, 0x16,
        ],
        "(int32, int32& pinned, typedref modopt(r1) pinned modreq(r2))",
    ),
    (SigKind::Instance, &[0x0A, 0x00], "<>"),
    (
        SigKind::Instance,
        &[0x0A, 0x03, 0x08, 0x1F, 0x09, 0x1D, 0x0E, 0x1E, 0x00],
        "<int32, string[] modreq(r2), !!0>",
    ),
    (SigKind::Field, &[0x06, 0x08, 0x00], ""),
];

#[test]
fn each_kind_of_a_signature_is_shown(rt: HostRuntime) -> Result<(), Fail> {
    for (kind, bytes, text) in BODIES {
        let shown = shown(rt.alloc(), bytes, kind)?;
        assert_eq!(rt; shown.as_str(), text);
    }
    Ok(())
}

/// A thousand modifiers: those of odd positions by the first row, those of even positions by the second.
#[test]
fn modifiers_follow_from_the_last_to_the_first(rt: HostRuntime) -> Result<(), Fail> {
    let mut bytes = Vec::new(rt.alloc());
    let mut text = String::new(rt.alloc());
    text.push_str("int32")?;
    for _ in 0..500 {
        bytes.extend_from_slice(&[0x1F, 0x05, 0x20, 0x09])?;
        text.push_str(" modopt(r2) modreq(r1)")?;
    }
    bytes.push(0x08)?;
    let shown = shown(rt.alloc(), &bytes, SigKind::TypeSpec)?;
    assert_eq!(rt; shown.as_str(), text.as_str());
    Ok(())
}
