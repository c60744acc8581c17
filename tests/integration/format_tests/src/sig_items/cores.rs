use crate::sig_items::collected::{
    FIRST, OPTIONAL_SECOND, REQUIRED_FIRST, SECOND, reported, written,
};
use schema::{TableId, Token};
use sig_items::{CallingConvention, Item, MethodHead, SigKind};
use sig_grammar::Element;
use std::test::Fail;

/// The head of a method without parameters.
const NO_PARAMETERS: Item = Item::Method(MethodHead {
    convention: CallingConvention::Default,
    this: false,
    explicit: false,
    generic: None,
    params: 0,
});

/// The head of a method with a parameter.
const ONE_PARAMETER: Item = Item::Method(MethodHead {
    convention: CallingConvention::Default,
    this: false,
    explicit: false,
    generic: None,
    params: 1,
});

/// The head of a method with two parameters, that may have a SENTINEL.
const TWO_PARAMETERS: Item = Item::Method(MethodHead {
    convention: CallingConvention::VarArg,
    this: false,
    explicit: false,
    generic: None,
    params: 2,
});

/// A type, as a TypeSpec of it alone, and its items.
type Reported = (&'static [u8], &'static [Item]);

/// Each form of a type (II.23.2.12).
const CORES: [Reported; 22] = [
    (&[0x08], &[Item::Simple(Element::I4)]),
    (&[0x1C], &[Item::Simple(Element::Object)]),
    (&[0x01], &[Item::Void]),
    (&[0x16], &[Item::TypedRef]),
    (&[0x10, 0x08], &[Item::ByRef, Item::Simple(Element::I4)]),
    (&[0x12, 0x05], &[Item::Class(FIRST)]),
    (&[0x11, 0x09], &[Item::Value(SECOND)]),
    (
        &[0x12, 0x04],
        &[Item::Class(Token {
            table: TableId::TypeDef,
            row: 1,
        })],
    ),
    (
        &[0x12, 0x80, 0x06],
        &[Item::Class(Token {
            table: TableId::TypeSpec,
            row: 1,
        })],
    ),
    (&[0x13, 0x03], &[Item::Var(3)]),
    (&[0x1E, 0x81, 0x00], &[Item::MVar(0x100)]),
    (&[0x0F, 0x01], &[Item::Pointer, Item::Void]),
    (
        &[0x0F, 0x1F, 0x05, 0x20, 0x09, 0x02],
        &[
            Item::Pointer,
            REQUIRED_FIRST,
            OPTIONAL_SECOND,
            Item::Simple(Element::Boolean),
        ],
    ),
    (
        &[0x1D, 0x1F, 0x05, 0x1D, 0x0E],
        &[
            Item::Vector,
            REQUIRED_FIRST,
            Item::Vector,
            Item::Simple(Element::String),
        ],
    ),
    // Two dimensions without sizes; three with two sizes and three lowest indexes; an array of arrays.
    (
        &[0x14, 0x08, 0x02, 0x00, 0x00],
        &[
            Item::Array,
            Item::Simple(Element::I4),
            Item::Shape { rank: 2, sizes: 0 },
            Item::LowBounds(0),
        ],
    ),
    (
        &[0x14, 0x0D, 0x03, 0x02, 0x03, 0x05, 0x03, 0x7B, 0x00, 0x08],
        &[
            Item::Array,
            Item::Simple(Element::R8),
            Item::Shape { rank: 3, sizes: 2 },
            Item::Size(3),
            Item::Size(5),
            Item::LowBounds(3),
            Item::LowBound(-3),
            Item::LowBound(0),
            Item::LowBound(4),
        ],
    ),
    (
        &[
            0x14, 0x14, 0x08, 0x01, 0x01, 0x07, 0x00, 0x01, 0x00, 0x01, 0x02,
        ],
        &[
            Item::Array,
            Item::Array,
            Item::Simple(Element::I4),
            Item::Shape { rank: 1, sizes: 1 },
            Item::Size(7),
            Item::LowBounds(0),
            Item::Shape { rank: 1, sizes: 0 },
            Item::LowBounds(1),
            Item::LowBound(1),
        ],
    ),
    // Instances: without arguments; of a class, whose second argument is an instance of a value type.
    (
        &[0x15, 0x11, 0x05, 0x00],
        &[Item::Instance {
            value: true,
            of: FIRST,
            args: 0,
        }],
    ),
    (
        &[
            0x15, 0x12, 0x05, 0x03, 0x08, 0x15, 0x11, 0x09, 0x01, 0x0E, 0x13, 0x00,
        ],
        &[
            Item::Instance {
                value: false,
                of: FIRST,
                args: 3,
            },
            Item::Simple(Element::I4),
            Item::Instance {
                value: true,
                of: SECOND,
                args: 1,
            },
            Item::Simple(Element::String),
            Item::Var(0),
        ],
    ),
    // Pointers to methods: without parameters; with a SENTINEL of its own, in a vector.
    (
        &[0x1B, 0x00, 0x00, 0x01],
        &[Item::Function, NO_PARAMETERS, Item::Void],
    ),
    (
        &[0x1D, 0x1B, 0x05, 0x02, 0x08, 0x0E, 0x41, 0x10, 0x0C],
        &[
            Item::Vector,
            Item::Function,
            TWO_PARAMETERS,
            Item::Simple(Element::I4),
            Item::Simple(Element::String),
            Item::Sentinel,
            Item::ByRef,
            Item::Simple(Element::R4),
        ],
    ),
    // A method whose one parameter is a pointer to a method, after which an argument follows.
    (
        &[
            0x15, 0x12, 0x05, 0x02, 0x1B, 0x00, 0x01, 0x01, 0x1B, 0x00, 0x01, 0x08, 0x16, 0x18,
        ],
        &[
            Item::Instance {
                value: false,
                of: FIRST,
                args: 2,
            },
            Item::Function,
            ONE_PARAMETER,
            Item::Void,
            Item::Function,
            ONE_PARAMETER,
            Item::Simple(Element::I4),
            Item::TypedRef,
            Item::Simple(Element::I),
        ],
    ),
];

#[test]
fn each_form_of_a_type_is_reported(rt: HostRuntime) -> Result<(), Fail> {
    for (bytes, items) in CORES {
        let reported = reported(rt.alloc(), bytes, SigKind::TypeSpec)?.ok_or("items")?;
        assert_eq!(rt; reported.as_slice(), items);
    }
    Ok(())
}

/// The one type of the table whose index is longer than necessary.
const LONG: &[u8] = &[0x12, 0x80, 0x06];

#[test]
fn items_of_each_form_are_written(rt: HostRuntime) -> Result<(), Fail> {
    for (bytes, items) in CORES {
        let shortest = if bytes == LONG { &[0x12, 0x06] } else { bytes };
        let written = written(rt.alloc(), items)?;
        assert_eq!(rt; written.as_slice(), shortest);
    }
    Ok(())
}
