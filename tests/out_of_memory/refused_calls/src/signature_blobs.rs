use schema::TableId;
use signatures::{SigKind, Token};

/// A blob that a column of a kind names, and what is known of it.
#[derive(Clone, Copy)]
pub struct SignatureBlob<'a> {
    /// What the signatures of the column are.
    pub kind: SigKind,
    /// The bytes, all of them.
    pub bytes: &'a [u8],
    /// What `recognise_first_bad` returns if each table has one row: `None` if the bytes
    /// encode no signature of the kind.
    pub first_without_row: Option<Option<Token>>,
}

impl<'a> SignatureBlob<'a> {
    /// Bytes that encode no type.
    pub fn of_type(bytes: &'a [u8]) -> SignatureBlob<'a> {
        SignatureBlob {
            kind: SigKind::TypeSpec,
            bytes,
            first_without_row: None,
        }
    }
}

/// The bytes encode a signature, and each type index names a row.
const EACH_ROW: Option<Option<Token>> = Some(None);

/// The bytes encode a signature, whose first type index without a row names row 2 of TypeRef.
const SECOND: Option<Option<Token>> = Some(Some(Token {
    table: TableId::TypeRef,
    row: 2,
}));

/// The bytes encode a signature, whose first type index without a row names row 0 of TypeRef.
const NULL: Option<Option<Token>> = Some(Some(Token {
    table: TableId::TypeRef,
    row: 0,
}));

/// Signatures of each form (II.23.2), each in its shortest encoding.
pub const ENCODED: [SignatureBlob<'static>; 21] = [
    // A field of an integer; and one of a reference, after a modifier, to a vector, after another.
    SignatureBlob {
        kind: SigKind::Field,
        bytes: &[0x06, 0x08],
        first_without_row: EACH_ROW,
    },
    SignatureBlob {
        kind: SigKind::MemberRef,
        bytes: &[0x06, 0x20, 0x05, 0x10, 0x1F, 0x09, 0x1D, 0x08],
        first_without_row: SECOND,
    },
    // Of an instance, with a text as parameter and no result; and generic, from its parameter to it.
    SignatureBlob {
        kind: SigKind::MethodDef,
        bytes: &[0x20, 0x01, 0x01, 0x0E],
        first_without_row: EACH_ROW,
    },
    SignatureBlob {
        kind: SigKind::MethodDef,
        bytes: &[0x30, 0x01, 0x01, 0x1E, 0x00, 0x1E, 0x00],
        first_without_row: EACH_ROW,
    },
    // A pointer to a vararg method, after SENTINEL an integer; and such a method, after SENTINEL a class.
    SignatureBlob {
        kind: SigKind::MethodDef,
        bytes: &[0x00, 0x00, 0x1B, 0x05, 0x01, 0x01, 0x41, 0x08],
        first_without_row: EACH_ROW,
    },
    SignatureBlob {
        kind: SigKind::MemberRef,
        bytes: &[0x05, 0x02, 0x01, 0x0E, 0x41, 0x12, 0x09],
        first_without_row: SECOND,
    },
    // An unmanaged method that is called by its address, with a pointer to VOID.
    SignatureBlob {
        kind: SigKind::StandAlone,
        bytes: &[0x09, 0x01, 0x01, 0x0F, 0x01],
        first_without_row: EACH_ROW,
    },
    // A property of an instance, with a parameter.
    SignatureBlob {
        kind: SigKind::Property,
        bytes: &[0x28, 0x01, 0x08, 0x0E],
        first_without_row: EACH_ROW,
    },
    // Variables: an integer and a pinned reference; a typed reference, and a text after modifiers and PINNED.
    SignatureBlob {
        kind: SigKind::StandAlone,
        bytes: &[0x07, 0x02, 0x08, 0x45, 0x10, 0x08],
        first_without_row: EACH_ROW,
    },
    SignatureBlob {
        kind: SigKind::StandAlone,
        bytes: &[0x07, 0x02, 0x16, 0x1F, 0x05, 0x45, 0x20, 0x09, 0x0E],
        first_without_row: SECOND,
    },
    // Type arguments of a generic method: an integer and a value type.
    SignatureBlob {
        kind: SigKind::Instance,
        bytes: &[0x0A, 0x02, 0x08, 0x11, 0x05],
        first_without_row: EACH_ROW,
    },
    // Two-dimensional arrays of integers: of low bounds 0, and of a size and low bounds -3 and 64.
    SignatureBlob {
        kind: SigKind::TypeSpec,
        bytes: &[0x14, 0x08, 0x02, 0x00, 0x02, 0x00, 0x00],
        first_without_row: EACH_ROW,
    },
    SignatureBlob {
        kind: SigKind::TypeSpec,
        bytes: &[0x14, 0x08, 0x02, 0x01, 0x03, 0x02, 0x7B, 0x80, 0x80],
        first_without_row: EACH_ROW,
    },
    // An instance of a generic class, with an instance of a generic value type in it.
    SignatureBlob {
        kind: SigKind::TypeSpec,
        bytes: &[
            0x15, 0x12, 0x05, 0x02, 0x08, 0x15, 0x11, 0x09, 0x01, 0x13, 0x00,
        ],
        first_without_row: SECOND,
    },
    // A class after modifiers, a pointer to VOID after one, a vector of pointers to vectors, and VOID.
    SignatureBlob {
        kind: SigKind::TypeSpec,
        bytes: &[0x1F, 0x05, 0x20, 0x09, 0x12, 0x05],
        first_without_row: SECOND,
    },
    SignatureBlob {
        kind: SigKind::TypeSpec,
        bytes: &[0x0F, 0x1F, 0x05, 0x01],
        first_without_row: EACH_ROW,
    },
    SignatureBlob {
        kind: SigKind::TypeSpec,
        bytes: &[0x1D, 0x0F, 0x1D, 0x08],
        first_without_row: EACH_ROW,
    },
    SignatureBlob {
        kind: SigKind::TypeSpec,
        bytes: &[0x01],
        first_without_row: EACH_ROW,
    },
    // A class by the null index; a field by reference; and three variables, one of them a pointer to VOID.
    SignatureBlob {
        kind: SigKind::TypeSpec,
        bytes: &[0x12, 0x01],
        first_without_row: NULL,
    },
    SignatureBlob {
        kind: SigKind::Field,
        bytes: &[0x06, 0x10, 0x08],
        first_without_row: EACH_ROW,
    },
    SignatureBlob {
        kind: SigKind::StandAlone,
        bytes: &[0x07, 0x03, 0x0F, 0x01, 0x1D, 0x0E, 0x10, 0x12, 0x05],
        first_without_row: EACH_ROW,
    },
];

/// A generic class whose index stands in two bytes, where one is enough.
pub const LONGER: SignatureBlob<'static> = SignatureBlob {
    kind: SigKind::TypeSpec,
    bytes: &[0x15, 0x12, 0x80, 0x05, 0x01, 0x08],
    first_without_row: EACH_ROW,
};

/// The shortest encoding of `LONGER`.
pub const SHORTENED: [u8; 5] = [0x15, 0x12, 0x05, 0x01, 0x08];

/// Blobs that encode no signature of their kind.
pub const BAD: [SignatureBlob<'static>; 15] = [
    // More variables than there are bytes.
    SignatureBlob {
        kind: SigKind::StandAlone,
        bytes: &[0x07, 0xDF, 0xFF, 0xFF, 0xFF, 0x08],
        first_without_row: None,
    },
    // A byte is left.
    SignatureBlob {
        kind: SigKind::Field,
        bytes: &[0x06, 0x08, 0x00],
        first_without_row: None,
    },
    // The bit 0x80 of the first byte.
    SignatureBlob {
        kind: SigKind::MethodDef,
        bytes: &[0x84, 0x00, 0x01],
        first_without_row: None,
    },
    // Rank 0, an index of tag 3, and a pointer to nothing.
    SignatureBlob {
        kind: SigKind::TypeSpec,
        bytes: &[0x14, 0x08, 0x00, 0x00, 0x00],
        first_without_row: None,
    },
    SignatureBlob {
        kind: SigKind::TypeSpec,
        bytes: &[0x12, 0x07],
        first_without_row: None,
    },
    SignatureBlob {
        kind: SigKind::TypeSpec,
        bytes: &[0x0F],
        first_without_row: None,
    },
    // An array with more sizes than its rank, and a field without a type.
    SignatureBlob {
        kind: SigKind::TypeSpec,
        bytes: &[0x14, 0x08, 0x01, 0x02, 0x03, 0x04, 0x00],
        first_without_row: None,
    },
    SignatureBlob {
        kind: SigKind::Field,
        bytes: &[0x06],
        first_without_row: None,
    },
    // SENTINEL in a method that this module defines, and after the last parameter.
    SignatureBlob {
        kind: SigKind::MethodDef,
        bytes: &[0x05, 0x01, 0x01, 0x41, 0x08],
        first_without_row: None,
    },
    SignatureBlob {
        kind: SigKind::MethodDef,
        bytes: &[0x05, 0x01, 0x01, 0x08, 0x41],
        first_without_row: None,
    },
    SignatureBlob {
        kind: SigKind::MemberRef,
        bytes: &[0x05, 0x01, 0x01, 0x08, 0x41],
        first_without_row: None,
    },
    // A property that is VOID.
    SignatureBlob {
        kind: SigKind::Property,
        bytes: &[0x08, 0x00, 0x01],
        first_without_row: None,
    },
    // Variables, an instance and a method, with whole types before the fault.
    SignatureBlob {
        kind: SigKind::StandAlone,
        bytes: &[0x07, 0x02, 0x1D, 0x08, 0x45, 0x10, 0x1D, 0x08, 0x00],
        first_without_row: None,
    },
    SignatureBlob {
        kind: SigKind::TypeSpec,
        bytes: &[0x15, 0x12, 0x05, 0x02, 0x1D, 0x08],
        first_without_row: None,
    },
    SignatureBlob {
        kind: SigKind::MethodDef,
        bytes: &[
            0x20, 0x02, 0x01, 0x1F, 0x05, 0x0E, 0x14, 0x08, 0x01, 0x00, 0x02, 0x00, 0x00,
        ],
        first_without_row: None,
    },
];
