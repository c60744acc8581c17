use crate::sig_items::collected::{
    OPTIONAL_FIRST, REQUIRED_FIRST, REQUIRED_SECOND, reported, written,
};
use sig_items::{CallingConvention, Item, MethodHead, SigKind};
use sig_grammar::Element;
use std::test::Fail;

/// A column's kind, a signature in it, and its items.
type Reported = (SigKind, &'static [u8], &'static [Item]);

/// Each kind of a signature (II.23.2.1 to II.23.2.6, II.23.2.15).
const BODIES: [Reported; 14] = [
    (
        SigKind::Field,
        &[0x06, 0x08],
        &[Item::Field, Item::Simple(Element::I4)],
    ),
    (
        SigKind::MemberRef,
        &[0x06, 0x1F, 0x09, 0x20, 0x05, 0x10, 0x1F, 0x05, 0x0D],
        &[
            Item::Field,
            REQUIRED_SECOND,
            OPTIONAL_FIRST,
            Item::ByRef,
            REQUIRED_FIRST,
            Item::Simple(Element::R8),
        ],
    ),
    (
        SigKind::StandAlone,
        &[0x06, 0x0C],
        &[Item::Field, Item::Simple(Element::R4)],
    ),
    (
        SigKind::MethodDef,
        &[0x00, 0x00, 0x01],
        &[
            Item::Method(MethodHead {
                convention: CallingConvention::Default,
                this: false,
                explicit: false,
                generic: None,
                params: 0,
            }),
            Item::Void,
        ],
    ),
    (
        SigKind::MethodDef,
        &[
            0x70, 0x02, 0x03, 0x1F, 0x09, 0x01, 0x20, 0x05, 0x08, 0x10, 0x0C, 0x16,
        ],
        &[
            Item::Method(MethodHead {
                convention: CallingConvention::Default,
                this: true,
                explicit: true,
                generic: Some(2),
                params: 3,
            }),
            REQUIRED_SECOND,
            Item::Void,
            OPTIONAL_FIRST,
            Item::Simple(Element::I4),
            Item::ByRef,
            Item::Simple(Element::R4),
            Item::TypedRef,
        ],
    ),
    // SENTINEL before the first of three parameters, before the last, and before none.
    (
        SigKind::MemberRef,
        &[0x05, 0x03, 0x01, 0x41, 0x08, 0x0E, 0x0C],
        &[
            Item::Method(MethodHead {
                convention: CallingConvention::VarArg,
                this: false,
                explicit: false,
                generic: None,
                params: 3,
            }),
            Item::Void,
            Item::Sentinel,
            Item::Simple(Element::I4),
            Item::Simple(Element::String),
            Item::Simple(Element::R4),
        ],
    ),
    (
        SigKind::StandAlone,
        &[0x01, 0x03, 0x01, 0x08, 0x0E, 0x41, 0x0C],
        &[
            Item::Method(MethodHead {
                convention: CallingConvention::C,
                this: false,
                explicit: false,
                generic: None,
                params: 3,
            }),
            Item::Void,
            Item::Simple(Element::I4),
            Item::Simple(Element::String),
            Item::Sentinel,
            Item::Simple(Element::R4),
        ],
    ),
    (
        SigKind::MemberRef,
        &[0x25, 0x01, 0x08, 0x0E],
        &[
            Item::Method(MethodHead {
                convention: CallingConvention::VarArg,
                this: true,
                explicit: false,
                generic: None,
                params: 1,
            }),
            Item::Simple(Element::I4),
            Item::Simple(Element::String),
        ],
    ),
    (
        SigKind::Property,
        &[0x28, 0x00, 0x08],
        &[
            Item::Property {
                this: true,
                params: 0,
            },
            Item::Simple(Element::I4),
        ],
    ),
    (
        SigKind::Property,
        &[0x08, 0x02, 0x0E, 0x08, 0x10, 0x0D],
        &[
            Item::Property {
                this: false,
                params: 2,
            },
            Item::Simple(Element::String),
            Item::Simple(Element::I4),
            Item::ByRef,
            Item::Simple(Element::R8),
        ],
    ),
    (SigKind::StandAlone, &[0x07, 0x00], &[Item::Locals(0)]),
    (
        SigKind::StandAlone,
        &[
            0x07, 0x03, 0x08, 0x45, 0x10, 0x08, 0x1F, 0x09, 0x45, 0x20, 0x05, 0x16,
        ],
        &[
            Item::Locals(3),
            Item::Simple(Element::I4),
            Item::Pinned,
            Item::ByRef,
            Item::Simple(Element::I4),
            REQUIRED_SECOND,
            Item::Pinned,
            OPTIONAL_FIRST,
            Item::TypedRef,
        ],
    ),
    (SigKind::Instance, &[0x0A, 0x00], &[Item::Arguments(0)]),
    (
        SigKind::Instance,
        &[0x0A, 0x03, 0x08, 0x1F, 0x09, 0x1D, 0x0E, 0x1E, 0x00],
        &[
            Item::Arguments(3),
            Item::Simple(Element::I4),
            REQUIRED_SECOND,
            Item::Vector,
            Item::Simple(Element::String),
            Item::MVar(0),
        ],
    ),
];

#[test]
fn each_kind_of_a_signature_is_reported(rt: HostRuntime) -> Result<(), Fail> {
    for (kind, bytes, items) in BODIES {
        let reported = reported(rt.alloc(), bytes, kind)?.ok_or("items")?;
        assert_eq!(rt; reported.as_slice(), items);
    }
    Ok(())
}

/// These encodings are the shortest.
#[test]
fn items_of_each_kind_are_written(rt: HostRuntime) -> Result<(), Fail> {
    for (_, bytes, items) in BODIES {
        let written = written(rt.alloc(), items)?;
        assert_eq!(rt; written.as_slice(), bytes);
    }
    Ok(())
}
