use schema::SigKind;

/// A type, as a TypeSpec of it alone, and what `Debug` shows of its value.
#[derive(Clone, Copy)]
pub struct CoreBlob {
    /// The bytes, all of them, in the shortest encoding.
    pub bytes: &'static [u8],
    /// The value of the type.
    pub shown: &'static str,
}

/// A signature in a column of a kind, and what `Debug` shows of its value.
#[derive(Clone, Copy)]
pub struct BodyBlob {
    /// The kind of the column.
    pub kind: SigKind,
    /// The bytes, all of them, in the shortest encoding.
    pub bytes: &'static [u8],
    /// The value of the signature.
    pub shown: &'static str,
}

/// Bytes that encode nothing in a column of a kind.
#[derive(Clone, Copy)]
pub struct RefusedBlob {
    /// The kind of the column.
    pub kind: SigKind,
    /// The bytes.
    pub bytes: &'static [u8],
}

/// Every form of a type (II.23.2.12), and every element type (II.23.1.16).
pub const CORES: [CoreBlob; 49] = [
    // Each element type that stands alone.
    CoreBlob {
        bytes: &[0x02],
        shown: "Simple(Boolean)",
    },
    CoreBlob {
        bytes: &[0x03],
        shown: "Simple(Char)",
    },
    CoreBlob {
        bytes: &[0x04],
        shown: "Simple(I1)",
    },
    CoreBlob {
        bytes: &[0x05],
        shown: "Simple(U1)",
    },
    CoreBlob {
        bytes: &[0x06],
        shown: "Simple(I2)",
    },
    CoreBlob {
        bytes: &[0x07],
        shown: "Simple(U2)",
    },
    CoreBlob {
        bytes: &[0x08],
        shown: "Simple(I4)",
    },
    CoreBlob {
        bytes: &[0x09],
        shown: "Simple(U4)",
    },
    CoreBlob {
        bytes: &[0x0A],
        shown: "Simple(I8)",
    },
    CoreBlob {
        bytes: &[0x0B],
        shown: "Simple(U8)",
    },
    CoreBlob {
        bytes: &[0x0C],
        shown: "Simple(R4)",
    },
    CoreBlob {
        bytes: &[0x0D],
        shown: "Simple(R8)",
    },
    CoreBlob {
        bytes: &[0x0E],
        shown: "Simple(String)",
    },
    CoreBlob {
        bytes: &[0x18],
        shown: "Simple(I)",
    },
    CoreBlob {
        bytes: &[0x19],
        shown: "Simple(U)",
    },
    CoreBlob {
        bytes: &[0x1C],
        shown: "Simple(Object)",
    },
    // PTR: to VOID and to a type, after no modifiers, one and three.
    CoreBlob {
        bytes: &[0x0F, 0x01],
        shown: "Pointer([], None)",
    },
    CoreBlob {
        bytes: &[0x0F, 0x1F, 0x09, 0x01],
        shown: "Pointer([Modifier { required: true, of: Token { table: TypeRef, row: 2 } }], None)",
    },
    CoreBlob {
        bytes: &[0x0F, 0x08],
        shown: "Pointer([], Some(Simple(I4)))",
    },
    CoreBlob {
        bytes: &[0x0F, 0x20, 0x06, 0x1F, 0x09, 0x20, 0x04, 0x0E],
        shown: "Pointer([Modifier { required: false, of: Token { table: TypeSpec, row: 1 } }, Modifier { required: true, of: Token { table: TypeRef, row: 2 } }, Modifier { required: false, of: Token { table: TypeDef, row: 1 } }], Some(Simple(String)))",
    },
    // SZARRAY.
    CoreBlob {
        bytes: &[0x1D, 0x08],
        shown: "Vector(TypeSig { mods: [], core: Simple(I4) })",
    },
    CoreBlob {
        bytes: &[0x1D, 0x20, 0x06, 0x0C],
        shown: "Vector(TypeSig { mods: [Modifier { required: false, of: Token { table: TypeSpec, row: 1 } }], core: Simple(R4) })",
    },
    // ARRAY: without sizes and low bounds, with three of each, and with fewer than dimensions.
    CoreBlob {
        bytes: &[0x14, 0x08, 0x01, 0x00, 0x00],
        shown: "Array(TypeSig { mods: [], core: Simple(I4) }, Shape { rank: 1, sizes: [], low: [] })",
    },
    CoreBlob {
        bytes: &[
            0x14, 0x0D, 0x03, 0x03, 0x02, 0x00, 0x80, 0x80, 0x03, 0x00, 0x7B, 0x06,
        ],
        shown: "Array(TypeSig { mods: [], core: Simple(R8) }, Shape { rank: 3, sizes: [2, 0, 128], low: [0, -3, 3] })",
    },
    CoreBlob {
        bytes: &[0x14, 0x08, 0x02, 0x00, 0x02, 0x00, 0x00],
        shown: "Array(TypeSig { mods: [], core: Simple(I4) }, Shape { rank: 2, sizes: [], low: [0, 0] })",
    },
    CoreBlob {
        bytes: &[0x14, 0x1F, 0x05, 0x08, 0x02, 0x01, 0x05, 0x01, 0x01],
        shown: "Array(TypeSig { mods: [Modifier { required: true, of: Token { table: TypeRef, row: 1 } }], core: Simple(I4) }, Shape { rank: 2, sizes: [5], low: [-64] })",
    },
    // Low bounds: a small one below 0, and those on both sides of the limits of their forms.
    CoreBlob {
        bytes: &[0x14, 0x08, 0x01, 0x00, 0x01, 0x7B],
        shown: "Array(TypeSig { mods: [], core: Simple(I4) }, Shape { rank: 1, sizes: [], low: [-3] })",
    },
    CoreBlob {
        bytes: &[0x14, 0x08, 0x01, 0x00, 0x01, 0x7E],
        shown: "Array(TypeSig { mods: [], core: Simple(I4) }, Shape { rank: 1, sizes: [], low: [63] })",
    },
    CoreBlob {
        bytes: &[0x14, 0x08, 0x01, 0x00, 0x01, 0x80, 0x80],
        shown: "Array(TypeSig { mods: [], core: Simple(I4) }, Shape { rank: 1, sizes: [], low: [64] })",
    },
    CoreBlob {
        bytes: &[0x14, 0x08, 0x01, 0x00, 0x01, 0xBF, 0x7F],
        shown: "Array(TypeSig { mods: [], core: Simple(I4) }, Shape { rank: 1, sizes: [], low: [-65] })",
    },
    CoreBlob {
        bytes: &[0x14, 0x08, 0x01, 0x00, 0x01, 0x80, 0x01],
        shown: "Array(TypeSig { mods: [], core: Simple(I4) }, Shape { rank: 1, sizes: [], low: [-8192] })",
    },
    CoreBlob {
        bytes: &[0x14, 0x08, 0x01, 0x00, 0x01, 0xC0, 0x00, 0x40, 0x00],
        shown: "Array(TypeSig { mods: [], core: Simple(I4) }, Shape { rank: 1, sizes: [], low: [8192] })",
    },
    CoreBlob {
        bytes: &[0x14, 0x08, 0x01, 0x00, 0x01, 0xDF, 0xFF, 0xFF, 0xFE],
        shown: "Array(TypeSig { mods: [], core: Simple(I4) }, Shape { rank: 1, sizes: [], low: [268435455] })",
    },
    CoreBlob {
        bytes: &[0x14, 0x08, 0x01, 0x00, 0x01, 0xC0, 0x00, 0x00, 0x01],
        shown: "Array(TypeSig { mods: [], core: Simple(I4) }, Shape { rank: 1, sizes: [], low: [-268435456] })",
    },
    // CLASS and VALUETYPE: of TypeDef, TypeRef and TypeSpec, of row 0, and of the last row that an index can name.
    CoreBlob {
        bytes: &[0x12, 0x08],
        shown: "Class(Token { table: TypeDef, row: 2 })",
    },
    CoreBlob {
        bytes: &[0x12, 0x05],
        shown: "Class(Token { table: TypeRef, row: 1 })",
    },
    CoreBlob {
        bytes: &[0x12, 0x0A],
        shown: "Class(Token { table: TypeSpec, row: 2 })",
    },
    CoreBlob {
        bytes: &[0x12, 0x01],
        shown: "Class(Token { table: TypeRef, row: 0 })",
    },
    CoreBlob {
        bytes: &[0x11, 0x08],
        shown: "Value(Token { table: TypeDef, row: 2 })",
    },
    CoreBlob {
        bytes: &[0x11, 0xDF, 0xFF, 0xFF, 0xFD],
        shown: "Value(Token { table: TypeRef, row: 134217727 })",
    },
    // VAR and MVAR.
    CoreBlob {
        bytes: &[0x13, 0x00],
        shown: "Var(0)",
    },
    CoreBlob {
        bytes: &[0x13, 0x81, 0x00],
        shown: "Var(256)",
    },
    CoreBlob {
        bytes: &[0x1E, 0x00],
        shown: "MVar(0)",
    },
    CoreBlob {
        bytes: &[0x1E, 0xDF, 0xFF, 0xFF, 0xFF],
        shown: "MVar(536870911)",
    },
    // GENERICINST: of a class without arguments, and of a value type with three.
    CoreBlob {
        bytes: &[0x15, 0x12, 0x05, 0x00],
        shown: "Instance { value: false, of: Token { table: TypeRef, row: 1 }, args: [] }",
    },
    CoreBlob {
        bytes: &[
            0x15, 0x11, 0x08, 0x03, 0x08, 0x1D, 0x0E, 0x1F, 0x09, 0x13, 0x01,
        ],
        shown: "Instance { value: true, of: Token { table: TypeDef, row: 2 }, args: [TypeSig { mods: [], core: Simple(I4) }, TypeSig { mods: [], core: Vector(TypeSig { mods: [], core: Simple(String) }) }, TypeSig { mods: [Modifier { required: true, of: Token { table: TypeRef, row: 2 } }], core: Var(1) }] }",
    },
    // FNPTR: to a method without parameters, and to vararg methods, with SENTINEL before the first of one and the second of three.
    CoreBlob {
        bytes: &[0x1B, 0x00, 0x00, 0x01],
        shown: "Function(MethodSig { kind: 0, this: false, explicit: false, generic: None, ret: Void([]), params: [], sentinel: None })",
    },
    CoreBlob {
        bytes: &[0x1B, 0x05, 0x01, 0x01, 0x41, 0x08],
        shown: "Function(MethodSig { kind: 5, this: false, explicit: false, generic: None, ret: Void([]), params: [Slot { mods: [], kind: Plain(Simple(I4)) }], sentinel: Some(0) })",
    },
    CoreBlob {
        bytes: &[0x1B, 0x65, 0x03, 0x16, 0x08, 0x41, 0x0E, 0x10, 0x0C],
        shown: "Function(MethodSig { kind: 5, this: true, explicit: true, generic: None, ret: Slot(Slot { mods: [], kind: TypedRef }), params: [Slot { mods: [], kind: Plain(Simple(I4)) }, Slot { mods: [], kind: Plain(Simple(String)) }, Slot { mods: [], kind: ByRef([], Simple(R4)) }], sentinel: Some(1) })",
    },
];

/// Every form of a signature (II.23.2).
pub const BODIES: [BodyBlob; 36] = [
    // Fields: of an integer, of a reference with its type, and of a reference after three modifiers and one.
    BodyBlob {
        kind: SigKind::Field,
        bytes: &[0x06, 0x08],
        shown: "Field(FieldSig(Slot { mods: [], kind: Plain(Simple(I4)) }))",
    },
    BodyBlob {
        kind: SigKind::Field,
        bytes: &[0x06, 0x16],
        shown: "Field(FieldSig(Slot { mods: [], kind: TypedRef }))",
    },
    BodyBlob {
        kind: SigKind::Field,
        bytes: &[
            0x06, 0x1F, 0x09, 0x20, 0x05, 0x20, 0x06, 0x10, 0x1F, 0x05, 0x0D,
        ],
        shown: "Field(FieldSig(Slot { mods: [Modifier { required: true, of: Token { table: TypeRef, row: 2 } }, Modifier { required: false, of: Token { table: TypeRef, row: 1 } }, Modifier { required: false, of: Token { table: TypeSpec, row: 1 } }], kind: ByRef([Modifier { required: true, of: Token { table: TypeRef, row: 1 } }], Simple(R8)) }))",
    },
    BodyBlob {
        kind: SigKind::MemberRef,
        bytes: &[0x06, 0x0E],
        shown: "Field(FieldSig(Slot { mods: [], kind: Plain(Simple(String)) }))",
    },
    BodyBlob {
        kind: SigKind::StandAlone,
        bytes: &[0x06, 0x0C],
        shown: "Field(FieldSig(Slot { mods: [], kind: Plain(Simple(R4)) }))",
    },
    // Methods of each calling convention, and with each bit of the first byte.
    BodyBlob {
        kind: SigKind::MethodDef,
        bytes: &[0x00, 0x00, 0x01],
        shown: "Method(MethodSig { kind: 0, this: false, explicit: false, generic: None, ret: Void([]), params: [], sentinel: None })",
    },
    BodyBlob {
        kind: SigKind::MethodDef,
        bytes: &[0x01, 0x00, 0x08],
        shown: "Method(MethodSig { kind: 1, this: false, explicit: false, generic: None, ret: Slot(Slot { mods: [], kind: Plain(Simple(I4)) }), params: [], sentinel: None })",
    },
    BodyBlob {
        kind: SigKind::MethodDef,
        bytes: &[0x02, 0x00, 0x08],
        shown: "Method(MethodSig { kind: 2, this: false, explicit: false, generic: None, ret: Slot(Slot { mods: [], kind: Plain(Simple(I4)) }), params: [], sentinel: None })",
    },
    BodyBlob {
        kind: SigKind::MethodDef,
        bytes: &[0x03, 0x00, 0x08],
        shown: "Method(MethodSig { kind: 3, this: false, explicit: false, generic: None, ret: Slot(Slot { mods: [], kind: Plain(Simple(I4)) }), params: [], sentinel: None })",
    },
    BodyBlob {
        kind: SigKind::MethodDef,
        bytes: &[0x04, 0x00, 0x08],
        shown: "Method(MethodSig { kind: 4, this: false, explicit: false, generic: None, ret: Slot(Slot { mods: [], kind: Plain(Simple(I4)) }), params: [], sentinel: None })",
    },
    BodyBlob {
        kind: SigKind::MethodDef,
        bytes: &[0x05, 0x00, 0x08],
        shown: "Method(MethodSig { kind: 5, this: false, explicit: false, generic: None, ret: Slot(Slot { mods: [], kind: Plain(Simple(I4)) }), params: [], sentinel: None })",
    },
    BodyBlob {
        kind: SigKind::MethodDef,
        bytes: &[0x09, 0x00, 0x08],
        shown: "Method(MethodSig { kind: 9, this: false, explicit: false, generic: None, ret: Slot(Slot { mods: [], kind: Plain(Simple(I4)) }), params: [], sentinel: None })",
    },
    BodyBlob {
        kind: SigKind::MethodDef,
        bytes: &[0x20, 0x01, 0x01, 0x0E],
        shown: "Method(MethodSig { kind: 0, this: true, explicit: false, generic: None, ret: Void([]), params: [Slot { mods: [], kind: Plain(Simple(String)) }], sentinel: None })",
    },
    BodyBlob {
        kind: SigKind::MethodDef,
        bytes: &[0x40, 0x01, 0x01, 0x1C],
        shown: "Method(MethodSig { kind: 0, this: false, explicit: true, generic: None, ret: Void([]), params: [Slot { mods: [], kind: Plain(Simple(Object)) }], sentinel: None })",
    },
    BodyBlob {
        kind: SigKind::MethodDef,
        bytes: &[0x30, 0x01, 0x01, 0x1E, 0x00, 0x1E, 0x00],
        shown: "Method(MethodSig { kind: 0, this: true, explicit: false, generic: Some(1), ret: Slot(Slot { mods: [], kind: Plain(MVar(0)) }), params: [Slot { mods: [], kind: Plain(MVar(0)) }], sentinel: None })",
    },
    // VOID after a modifier, and three parameters: after a modifier, by reference, and a reference with its type.
    BodyBlob {
        kind: SigKind::MethodDef,
        bytes: &[
            0x70, 0x02, 0x03, 0x1F, 0x09, 0x01, 0x20, 0x06, 0x08, 0x10, 0x0C, 0x16,
        ],
        shown: "Method(MethodSig { kind: 0, this: true, explicit: true, generic: Some(2), ret: Void([Modifier { required: true, of: Token { table: TypeRef, row: 2 } }]), params: [Slot { mods: [Modifier { required: false, of: Token { table: TypeSpec, row: 1 } }], kind: Plain(Simple(I4)) }, Slot { mods: [], kind: ByRef([], Simple(R4)) }, Slot { mods: [], kind: TypedRef }], sentinel: None })",
    },
    // SENTINEL in a function pointer, which is the result of a method that has none of its own.
    BodyBlob {
        kind: SigKind::MethodDef,
        bytes: &[0x00, 0x00, 0x1B, 0x05, 0x01, 0x01, 0x41, 0x08],
        shown: "Method(MethodSig { kind: 0, this: false, explicit: false, generic: None, ret: Slot(Slot { mods: [], kind: Plain(Function(MethodSig { kind: 5, this: false, explicit: false, generic: None, ret: Void([]), params: [Slot { mods: [], kind: Plain(Simple(I4)) }], sentinel: Some(0) })) }), params: [], sentinel: None })",
    },
    // SENTINEL before each of three parameters, before none, and in a method of the kind C.
    BodyBlob {
        kind: SigKind::MemberRef,
        bytes: &[0x05, 0x03, 0x01, 0x41, 0x08, 0x0E, 0x0C],
        shown: "Method(MethodSig { kind: 5, this: false, explicit: false, generic: None, ret: Void([]), params: [Slot { mods: [], kind: Plain(Simple(I4)) }, Slot { mods: [], kind: Plain(Simple(String)) }, Slot { mods: [], kind: Plain(Simple(R4)) }], sentinel: Some(0) })",
    },
    BodyBlob {
        kind: SigKind::MemberRef,
        bytes: &[0x05, 0x03, 0x01, 0x08, 0x41, 0x0E, 0x0C],
        shown: "Method(MethodSig { kind: 5, this: false, explicit: false, generic: None, ret: Void([]), params: [Slot { mods: [], kind: Plain(Simple(I4)) }, Slot { mods: [], kind: Plain(Simple(String)) }, Slot { mods: [], kind: Plain(Simple(R4)) }], sentinel: Some(1) })",
    },
    BodyBlob {
        kind: SigKind::StandAlone,
        bytes: &[0x05, 0x03, 0x01, 0x08, 0x0E, 0x41, 0x0C],
        shown: "Method(MethodSig { kind: 5, this: false, explicit: false, generic: None, ret: Void([]), params: [Slot { mods: [], kind: Plain(Simple(I4)) }, Slot { mods: [], kind: Plain(Simple(String)) }, Slot { mods: [], kind: Plain(Simple(R4)) }], sentinel: Some(2) })",
    },
    BodyBlob {
        kind: SigKind::MemberRef,
        bytes: &[0x05, 0x03, 0x01, 0x08, 0x0E, 0x0C],
        shown: "Method(MethodSig { kind: 5, this: false, explicit: false, generic: None, ret: Void([]), params: [Slot { mods: [], kind: Plain(Simple(I4)) }, Slot { mods: [], kind: Plain(Simple(String)) }, Slot { mods: [], kind: Plain(Simple(R4)) }], sentinel: None })",
    },
    BodyBlob {
        kind: SigKind::MemberRef,
        bytes: &[0x01, 0x01, 0x01, 0x41, 0x08],
        shown: "Method(MethodSig { kind: 1, this: false, explicit: false, generic: None, ret: Void([]), params: [Slot { mods: [], kind: Plain(Simple(I4)) }], sentinel: Some(0) })",
    },
    // Properties: of an instance without parameters, and of a type with three.
    BodyBlob {
        kind: SigKind::Property,
        bytes: &[0x28, 0x00, 0x08],
        shown: "Property(PropertySig { this: true, of: Slot { mods: [], kind: Plain(Simple(I4)) }, params: [] })",
    },
    BodyBlob {
        kind: SigKind::Property,
        bytes: &[0x08, 0x03, 0x0E, 0x08, 0x0C, 0x0D],
        shown: "Property(PropertySig { this: false, of: Slot { mods: [], kind: Plain(Simple(String)) }, params: [Slot { mods: [], kind: Plain(Simple(I4)) }, Slot { mods: [], kind: Plain(Simple(R4)) }, Slot { mods: [], kind: Plain(Simple(R8)) }] })",
    },
    // Local variables: two, the second pinned and by reference.
    BodyBlob {
        kind: SigKind::StandAlone,
        bytes: &[0x07, 0x02, 0x08, 0x45, 0x10, 0x08],
        shown: "Locals(LocalsSig([Local { prefix: [], kind: Plain(Simple(I4)) }, Local { prefix: [Pinned], kind: ByRef([], Simple(I4)) }]))",
    },
    // Local variables: none, three, the last of them after PINNED between modifiers, and one by reference.
    BodyBlob {
        kind: SigKind::StandAlone,
        bytes: &[0x07, 0x00],
        shown: "Locals(LocalsSig([]))",
    },
    BodyBlob {
        kind: SigKind::StandAlone,
        bytes: &[
            0x07, 0x03, 0x08, 0x45, 0x10, 0x08, 0x1F, 0x09, 0x45, 0x20, 0x05, 0x16,
        ],
        shown: "Locals(LocalsSig([Local { prefix: [], kind: Plain(Simple(I4)) }, Local { prefix: [Pinned], kind: ByRef([], Simple(I4)) }, Local { prefix: [Mod(Modifier { required: true, of: Token { table: TypeRef, row: 2 } }), Pinned, Mod(Modifier { required: false, of: Token { table: TypeRef, row: 1 } })], kind: TypedRef }]))",
    },
    BodyBlob {
        kind: SigKind::StandAlone,
        bytes: &[0x07, 0x01, 0x10, 0x1F, 0x09, 0x08],
        shown: "Locals(LocalsSig([Local { prefix: [], kind: ByRef([Modifier { required: true, of: Token { table: TypeRef, row: 2 } }], Simple(I4)) }]))",
    },
    // Type arguments: one, none, and three.
    BodyBlob {
        kind: SigKind::Instance,
        bytes: &[0x0A, 0x01, 0x08],
        shown: "Instance(InstanceSig([TypeSig { mods: [], core: Simple(I4) }]))",
    },
    BodyBlob {
        kind: SigKind::Instance,
        bytes: &[0x0A, 0x00],
        shown: "Instance(InstanceSig([]))",
    },
    BodyBlob {
        kind: SigKind::Instance,
        bytes: &[0x0A, 0x03, 0x08, 0x1F, 0x09, 0x1D, 0x0E, 0x1E, 0x00],
        shown: "Instance(InstanceSig([TypeSig { mods: [], core: Simple(I4) }, TypeSig { mods: [Modifier { required: true, of: Token { table: TypeRef, row: 2 } }], core: Vector(TypeSig { mods: [], core: Simple(String) }) }, TypeSig { mods: [], core: MVar(0) }]))",
    },
    // Types: VOID without and after a modifier, by reference, a reference with its type, and a class after a modifier.
    BodyBlob {
        kind: SigKind::TypeSpec,
        bytes: &[0x01],
        shown: "TypeSpec(Void([]))",
    },
    BodyBlob {
        kind: SigKind::TypeSpec,
        bytes: &[0x1F, 0x09, 0x01],
        shown: "TypeSpec(Void([Modifier { required: true, of: Token { table: TypeRef, row: 2 } }]))",
    },
    BodyBlob {
        kind: SigKind::TypeSpec,
        bytes: &[0x10, 0x08],
        shown: "TypeSpec(Slot(Slot { mods: [], kind: ByRef([], Simple(I4)) }))",
    },
    BodyBlob {
        kind: SigKind::TypeSpec,
        bytes: &[0x16],
        shown: "TypeSpec(Slot(Slot { mods: [], kind: TypedRef }))",
    },
    BodyBlob {
        kind: SigKind::TypeSpec,
        bytes: &[0x1F, 0x09, 0x12, 0x05],
        shown: "TypeSpec(Slot(Slot { mods: [Modifier { required: true, of: Token { table: TypeRef, row: 2 } }], kind: Plain(Class(Token { table: TypeRef, row: 1 })) }))",
    },
];

/// What the grammar does not encode.
pub const REFUSED: [RefusedBlob; 40] = [
    // Nothing, a byte too few, and a byte too many.
    RefusedBlob {
        kind: SigKind::Field,
        bytes: &[],
    },
    RefusedBlob {
        kind: SigKind::Field,
        bytes: &[0x06],
    },
    RefusedBlob {
        kind: SigKind::Field,
        bytes: &[0x06, 0x08, 0x00],
    },
    // A first byte of another kind of column.
    RefusedBlob {
        kind: SigKind::Field,
        bytes: &[0x07, 0x00],
    },
    RefusedBlob {
        kind: SigKind::Property,
        bytes: &[0x06, 0x08],
    },
    RefusedBlob {
        kind: SigKind::Instance,
        bytes: &[0x06, 0x08],
    },
    RefusedBlob {
        kind: SigKind::MethodDef,
        bytes: &[0x06, 0x08],
    },
    RefusedBlob {
        kind: SigKind::MemberRef,
        bytes: &[0x07, 0x00],
    },
    RefusedBlob {
        kind: SigKind::TypeSpec,
        bytes: &[0x0A, 0x00],
    },
    // PINNED in a field, VOID as a field and as a property, and BYREF in a type argument and in a vector.
    RefusedBlob {
        kind: SigKind::Field,
        bytes: &[0x06, 0x45, 0x08],
    },
    RefusedBlob {
        kind: SigKind::Field,
        bytes: &[0x06, 0x01],
    },
    RefusedBlob {
        kind: SigKind::Property,
        bytes: &[0x08, 0x00, 0x01],
    },
    RefusedBlob {
        kind: SigKind::Instance,
        bytes: &[0x0A, 0x01, 0x10, 0x08],
    },
    RefusedBlob {
        kind: SigKind::TypeSpec,
        bytes: &[0x1D, 0x10, 0x08],
    },
    // The highest bit of a first byte, and kinds that there are not.
    RefusedBlob {
        kind: SigKind::MethodDef,
        bytes: &[0x84, 0x00, 0x01],
    },
    RefusedBlob {
        kind: SigKind::MethodDef,
        bytes: &[0x07, 0x00, 0x01],
    },
    RefusedBlob {
        kind: SigKind::MethodDef,
        bytes: &[0x08, 0x00, 0x01],
    },
    RefusedBlob {
        kind: SigKind::MethodDef,
        bytes: &[0x0F, 0x00, 0x01],
    },
    // SENTINEL where a method is defined, after the last parameter, twice, and in a kind without it.
    RefusedBlob {
        kind: SigKind::MethodDef,
        bytes: &[0x05, 0x01, 0x01, 0x41, 0x08],
    },
    RefusedBlob {
        kind: SigKind::MethodDef,
        bytes: &[0x05, 0x01, 0x01, 0x08, 0x41],
    },
    RefusedBlob {
        kind: SigKind::MemberRef,
        bytes: &[0x05, 0x01, 0x01, 0x08, 0x41],
    },
    RefusedBlob {
        kind: SigKind::MemberRef,
        bytes: &[0x05, 0x02, 0x01, 0x41, 0x08, 0x41, 0x0E],
    },
    RefusedBlob {
        kind: SigKind::MemberRef,
        bytes: &[0x05, 0x01, 0x01, 0x41],
    },
    RefusedBlob {
        kind: SigKind::MemberRef,
        bytes: &[0x00, 0x01, 0x01, 0x41, 0x08],
    },
    RefusedBlob {
        kind: SigKind::MemberRef,
        bytes: &[0x09, 0x01, 0x01, 0x41, 0x08],
    },
    // Rank 0, more sizes than the rank, and more low bounds.
    RefusedBlob {
        kind: SigKind::TypeSpec,
        bytes: &[0x14, 0x08, 0x00, 0x00, 0x00],
    },
    RefusedBlob {
        kind: SigKind::TypeSpec,
        bytes: &[0x14, 0x08, 0x01, 0x02, 0x03, 0x04, 0x00],
    },
    RefusedBlob {
        kind: SigKind::TypeSpec,
        bytes: &[0x14, 0x08, 0x01, 0x00, 0x02, 0x00, 0x00],
    },
    // An index of tag 3, a pointer to nothing, a generic type that is neither class nor value type, and bytes that begin no type.
    RefusedBlob {
        kind: SigKind::TypeSpec,
        bytes: &[0x12, 0x07],
    },
    RefusedBlob {
        kind: SigKind::TypeSpec,
        bytes: &[0x0F],
    },
    RefusedBlob {
        kind: SigKind::TypeSpec,
        bytes: &[0x15, 0x1C, 0x05, 0x00],
    },
    RefusedBlob {
        kind: SigKind::TypeSpec,
        bytes: &[0x17],
    },
    RefusedBlob {
        kind: SigKind::TypeSpec,
        bytes: &[0x1A],
    },
    RefusedBlob {
        kind: SigKind::TypeSpec,
        bytes: &[0x21],
    },
    RefusedBlob {
        kind: SigKind::TypeSpec,
        bytes: &[0x41, 0x08],
    },
    RefusedBlob {
        kind: SigKind::TypeSpec,
        bytes: &[0x45, 0x08],
    },
    RefusedBlob {
        kind: SigKind::TypeSpec,
        bytes: &[0x00],
    },
    // A number cut off, one that begins no packed number, and more variables than there are bytes.
    RefusedBlob {
        kind: SigKind::TypeSpec,
        bytes: &[0x13, 0x80],
    },
    RefusedBlob {
        kind: SigKind::TypeSpec,
        bytes: &[0x13, 0xE0, 0x00, 0x00, 0x00],
    },
    RefusedBlob {
        kind: SigKind::StandAlone,
        bytes: &[0x07, 0xDF, 0xFF, 0xFF, 0xFF, 0x08],
    },
];
