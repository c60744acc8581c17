//! The tables of the standard (ECMA-335 II.22), listed a second time and without the library's own lists, so
//! that a mistake there is seen.

use model::{Coded, SigKind};

/// A table, by its number.
pub type Table = u8;

pub const MODULE: Table = 0x00;

pub const TYPE_REF: Table = 0x01;

pub const TYPE_DEF: Table = 0x02;

pub const FIELD: Table = 0x04;

pub const METHOD_DEF: Table = 0x06;

pub const PARAM: Table = 0x08;

pub const INTERFACE_IMPL: Table = 0x09;

pub const MEMBER_REF: Table = 0x0A;

pub const CONSTANT: Table = 0x0B;

pub const CUSTOM_ATTRIBUTE: Table = 0x0C;

pub const FIELD_MARSHAL: Table = 0x0D;

pub const DECL_SECURITY: Table = 0x0E;

pub const CLASS_LAYOUT: Table = 0x0F;

pub const FIELD_LAYOUT: Table = 0x10;

pub const STAND_ALONE_SIG: Table = 0x11;

pub const EVENT_MAP: Table = 0x12;

pub const EVENT: Table = 0x14;

pub const PROPERTY_MAP: Table = 0x15;

pub const PROPERTY: Table = 0x17;

pub const METHOD_SEMANTICS: Table = 0x18;

pub const METHOD_IMPL: Table = 0x19;

pub const MODULE_REF: Table = 0x1A;

pub const TYPE_SPEC: Table = 0x1B;

pub const IMPL_MAP: Table = 0x1C;

pub const FIELD_RVA: Table = 0x1D;

pub const ASSEMBLY: Table = 0x20;

pub const ASSEMBLY_PROCESSOR: Table = 0x21;

pub const ASSEMBLY_OS: Table = 0x22;

pub const ASSEMBLY_REF: Table = 0x23;

pub const ASSEMBLY_REF_PROCESSOR: Table = 0x24;

pub const ASSEMBLY_REF_OS: Table = 0x25;

pub const FILE: Table = 0x26;

pub const EXPORTED_TYPE: Table = 0x27;

pub const MANIFEST_RESOURCE: Table = 0x28;

pub const NESTED_CLASS: Table = 0x29;

pub const GENERIC_PARAM: Table = 0x2A;

pub const METHOD_SPEC: Table = 0x2B;

pub const GENERIC_PARAM_CONSTRAINT: Table = 0x2C;

/// All tables, in the order of their numbers.
pub const TABLES: [Table; 38] = [
    MODULE,
    TYPE_REF,
    TYPE_DEF,
    FIELD,
    METHOD_DEF,
    PARAM,
    INTERFACE_IMPL,
    MEMBER_REF,
    CONSTANT,
    CUSTOM_ATTRIBUTE,
    FIELD_MARSHAL,
    DECL_SECURITY,
    CLASS_LAYOUT,
    FIELD_LAYOUT,
    STAND_ALONE_SIG,
    EVENT_MAP,
    EVENT,
    PROPERTY_MAP,
    PROPERTY,
    METHOD_SEMANTICS,
    METHOD_IMPL,
    MODULE_REF,
    TYPE_SPEC,
    IMPL_MAP,
    FIELD_RVA,
    ASSEMBLY,
    ASSEMBLY_PROCESSOR,
    ASSEMBLY_OS,
    ASSEMBLY_REF,
    ASSEMBLY_REF_PROCESSOR,
    ASSEMBLY_REF_OS,
    FILE,
    EXPORTED_TYPE,
    MANIFEST_RESOURCE,
    NESTED_CLASS,
    GENERIC_PARAM,
    METHOD_SPEC,
    GENERIC_PARAM_CONSTRAINT,
];

/// How many rows each table has, by its number.
pub type Counts = [u32; 45];

/// What a column holds.
#[derive(Clone, Copy, Debug, PartialEq, Eq)]
pub enum Kind {
    /// A number of this number of bytes.
    Number(usize),
    /// A byte that means nothing.
    Padding,
    /// An index into `#Strings`.
    Text,
    /// An index into `#GUID`.
    Guid,
    /// An index into `#Blob`.
    Blob,
    /// An index into `#Blob`, of a signature.
    Signature(SigKind),
    /// A row of a table.
    Row(Table),
    /// A row of one of several tables.
    Coded(Coded),
    /// The same, or null.
    CodedOrNull(Coded),
    /// The first row of a run in a table.
    List(Table),
}

const U1: Kind = Kind::Number(1);

const U2: Kind = Kind::Number(2);

const U4: Kind = Kind::Number(4);

const S: Kind = Kind::Text;

const G: Kind = Kind::Guid;

const B: Kind = Kind::Blob;

/// The columns of a table, in their order.
pub fn columns(table: Table) -> &'static [Kind] {
    match table {
        MODULE => &[U2, S, G, G, G],
        TYPE_REF => &[Kind::CodedOrNull(Coded::ResolutionScope), S, S],
        TYPE_DEF => &[
            U4,
            S,
            S,
            Kind::CodedOrNull(Coded::TypeDefOrRef),
            Kind::List(FIELD),
            Kind::List(METHOD_DEF),
        ],
        FIELD => &[U2, S, Kind::Signature(SigKind::Field)],
        METHOD_DEF => &[
            U4,
            U2,
            U2,
            S,
            Kind::Signature(SigKind::MethodDef),
            Kind::List(PARAM),
        ],
        PARAM => &[U2, U2, S],
        INTERFACE_IMPL => &[Kind::Row(TYPE_DEF), Kind::Coded(Coded::TypeDefOrRef)],
        MEMBER_REF => &[
            Kind::Coded(Coded::MemberRefParent),
            S,
            Kind::Signature(SigKind::MemberRef),
        ],
        CONSTANT => &[U1, Kind::Padding, Kind::Coded(Coded::HasConstant), B],
        CUSTOM_ATTRIBUTE => &[
            Kind::Coded(Coded::HasCustomAttribute),
            Kind::Coded(Coded::CustomAttributeType),
            B,
        ],
        FIELD_MARSHAL => &[Kind::Coded(Coded::HasFieldMarshal), B],
        DECL_SECURITY => &[U2, Kind::Coded(Coded::HasDeclSecurity), B],
        CLASS_LAYOUT => &[U2, U4, Kind::Row(TYPE_DEF)],
        FIELD_LAYOUT => &[U4, Kind::Row(FIELD)],
        STAND_ALONE_SIG => &[Kind::Signature(SigKind::StandAlone)],
        EVENT_MAP => &[Kind::Row(TYPE_DEF), Kind::List(EVENT)],
        EVENT => &[U2, S, Kind::CodedOrNull(Coded::TypeDefOrRef)],
        PROPERTY_MAP => &[Kind::Row(TYPE_DEF), Kind::List(PROPERTY)],
        PROPERTY => &[U2, S, Kind::Signature(SigKind::Property)],
        METHOD_SEMANTICS => &[U2, Kind::Row(METHOD_DEF), Kind::Coded(Coded::HasSemantics)],
        METHOD_IMPL => &[
            Kind::Row(TYPE_DEF),
            Kind::Coded(Coded::MethodDefOrRef),
            Kind::Coded(Coded::MethodDefOrRef),
        ],
        MODULE_REF => &[S],
        TYPE_SPEC => &[Kind::Signature(SigKind::TypeSpec)],
        IMPL_MAP => &[
            U2,
            Kind::Coded(Coded::MemberForwarded),
            S,
            Kind::Row(MODULE_REF),
        ],
        FIELD_RVA => &[U4, Kind::Row(FIELD)],
        ASSEMBLY => &[U4, U2, U2, U2, U2, U4, B, S, S],
        ASSEMBLY_PROCESSOR => &[U4],
        ASSEMBLY_OS => &[U4, U4, U4],
        ASSEMBLY_REF => &[U2, U2, U2, U2, U4, B, S, S, B],
        ASSEMBLY_REF_PROCESSOR => &[U4, Kind::Row(ASSEMBLY_REF)],
        ASSEMBLY_REF_OS => &[U4, U4, U4, Kind::Row(ASSEMBLY_REF)],
        FILE => &[U4, S, B],
        EXPORTED_TYPE => &[U4, U4, S, S, Kind::CodedOrNull(Coded::Implementation)],
        MANIFEST_RESOURCE => &[U4, U4, S, Kind::CodedOrNull(Coded::Implementation)],
        NESTED_CLASS => &[Kind::Row(TYPE_DEF), Kind::Row(TYPE_DEF)],
        GENERIC_PARAM => &[U2, U2, Kind::Coded(Coded::TypeOrMethodDef), S],
        METHOD_SPEC => &[
            Kind::Coded(Coded::MethodDefOrRef),
            Kind::Signature(SigKind::Instance),
        ],
        GENERIC_PARAM_CONSTRAINT => &[Kind::Row(GENERIC_PARAM), Kind::Coded(Coded::TypeDefOrRef)],
        _ => &[],
    }
}

/// The tables of a coded index by their tags, `None` for a tag that is not used (II.24.2.6).
pub fn listed(coded: Coded) -> &'static [Option<Table>] {
    match coded {
        Coded::TypeDefOrRef => &[Some(TYPE_DEF), Some(TYPE_REF), Some(TYPE_SPEC)],
        Coded::HasConstant => &[Some(FIELD), Some(PARAM), Some(PROPERTY)],
        Coded::HasCustomAttribute => &[
            Some(METHOD_DEF),
            Some(FIELD),
            Some(TYPE_REF),
            Some(TYPE_DEF),
            Some(PARAM),
            Some(INTERFACE_IMPL),
            Some(MEMBER_REF),
            Some(MODULE),
            Some(DECL_SECURITY),
            Some(PROPERTY),
            Some(EVENT),
            Some(STAND_ALONE_SIG),
            Some(MODULE_REF),
            Some(TYPE_SPEC),
            Some(ASSEMBLY),
            Some(ASSEMBLY_REF),
            Some(FILE),
            Some(EXPORTED_TYPE),
            Some(MANIFEST_RESOURCE),
            Some(GENERIC_PARAM),
            Some(GENERIC_PARAM_CONSTRAINT),
            Some(METHOD_SPEC),
        ],
        Coded::HasFieldMarshal => &[Some(FIELD), Some(PARAM)],
        Coded::HasDeclSecurity => &[Some(TYPE_DEF), Some(METHOD_DEF), Some(ASSEMBLY)],
        Coded::MemberRefParent => &[
            Some(TYPE_DEF),
            Some(TYPE_REF),
            Some(MODULE_REF),
            Some(METHOD_DEF),
            Some(TYPE_SPEC),
        ],
        Coded::HasSemantics => &[Some(EVENT), Some(PROPERTY)],
        Coded::MethodDefOrRef => &[Some(METHOD_DEF), Some(MEMBER_REF)],
        Coded::MemberForwarded => &[Some(FIELD), Some(METHOD_DEF)],
        Coded::Implementation => &[Some(FILE), Some(ASSEMBLY_REF), Some(EXPORTED_TYPE)],
        Coded::CustomAttributeType => &[None, None, Some(METHOD_DEF), Some(MEMBER_REF), None],
        Coded::ResolutionScope => &[
            Some(MODULE),
            Some(MODULE_REF),
            Some(ASSEMBLY_REF),
            Some(TYPE_REF),
        ],
        Coded::TypeOrMethodDef => &[Some(TYPE_DEF), Some(METHOD_DEF)],
    }
}

/// How many bits the tag of a coded index takes: the fewest that distinguish its tables.
pub fn tag_bits(coded: Coded) -> u32 {
    let len = listed(coded).len();
    let mut bits = 0;
    while 1 << bits < len {
        bits += 1;
    }
    bits
}

/// The column by which the rows of a table may be in order (II.22).
pub fn key_column(table: Table) -> Option<usize> {
    match table {
        INTERFACE_IMPL
        | CUSTOM_ATTRIBUTE
        | FIELD_MARSHAL
        | METHOD_IMPL
        | NESTED_CLASS
        | GENERIC_PARAM_CONSTRAINT => Some(0),
        DECL_SECURITY | FIELD_LAYOUT | IMPL_MAP | FIELD_RVA => Some(1),
        CONSTANT | CLASS_LAYOUT | METHOD_SEMANTICS | GENERIC_PARAM => Some(2),
        _ => None,
    }
}

/// The five runs of members: the owners, the column that lists the members, and these, in the order in which
/// they are asked about.
pub const RUNS: [(Table, usize, Table); 5] = [
    (TYPE_DEF, 4, FIELD),
    (TYPE_DEF, 5, METHOD_DEF),
    (METHOD_DEF, 5, PARAM),
    (EVENT_MAP, 1, EVENT),
    (PROPERTY_MAP, 1, PROPERTY),
];

/// How many bytes a number in a column takes (II.24.2.6).
pub fn width(counts: &Counts, heap_sizes: u8, kind: Kind) -> usize {
    let is_wide = match kind {
        Kind::Number(width) => return width,
        Kind::Padding => return 1,
        Kind::Text => heap_sizes & 1 != 0,
        Kind::Guid => heap_sizes & 2 != 0,
        Kind::Blob | Kind::Signature(_) => heap_sizes & 4 != 0,
        Kind::Row(table) | Kind::List(table) => counts[table as usize] > 0xFFFF,
        Kind::Coded(coded) | Kind::CodedOrNull(coded) => has_long_table(counts, coded),
    };
    if is_wide { 4 } else { 2 }
}

/// Whether a table of a coded index has too many rows for two bytes.
fn has_long_table(counts: &Counts, coded: Coded) -> bool {
    let limit = 1 << (16 - tag_bits(coded));
    for table in listed(coded).iter().flatten() {
        if counts[*table as usize] >= limit {
            return true;
        }
    }
    false
}
