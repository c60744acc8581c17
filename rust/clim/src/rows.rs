//! The rows of the 38 tables, each with a field for each of its cells (II.22).

use crate::cells::{Cell, Column, Guid, Signature};
use crate::tables::{Table, Token};

/// A row of a table. [`View::rows`](crate::View::rows) and [`View::row`](crate::View::row) read it.
pub trait Row<'a>: Sized {
    /// The table.
    const TABLE: Table;

    /// The names of the columns, in the order of the cells. `kind` is the field of a column `Type`.
    const COLUMNS: &'static [&'static str];

    /// The row with these cells, given in the order of their columns; `None` if there are others.
    fn from_cells(cells: impl Iterator<Item = Cell<'a>>) -> Option<Self>;

    /// The cells of the row, in the order of their columns.
    fn cells(&self) -> Vec<Cell<'a>>;
}

macro_rules! rows {
    ($(#[doc = $about:literal] $name:ident $(<$life:lifetime>)? { $($field:ident: $type:ty = $column:literal,)* })*) => {$(
        #[doc = $about]
        #[derive(Clone, Copy, Debug, PartialEq, Eq, Hash)]
        pub struct $name $(<$life>)? {
            $(#[doc = concat!("The cell `", $column, "`.")] pub $field: $type,)*
        }

        impl<'a> Row<'a> for $name $(<$life>)? {
            const TABLE: Table = Table::$name;
            const COLUMNS: &'static [&'static str] = &[$($column),*];

            fn from_cells(mut cells: impl Iterator<Item = Cell<'a>>) -> Option<Self> {
                $(let $field = Column::from_cell(cells.next()?)?;)*
                Some($name { $($field),* })
            }

            fn cells(&self) -> Vec<Cell<'a>> {
                vec![$(self.$field.to_cell($column)),*]
            }
        }
    )*};
}

rows! {
    /// The module (II.22.30).
    Module<'a> {
        generation: u32 = "Generation",
        name: &'a str = "Name",
        mvid: Option<Guid> = "Mvid",
        enc_id: Option<Guid> = "EncId",
        enc_base_id: Option<Guid> = "EncBaseId",
    }

    /// A type of another module (II.22.38).
    TypeRef<'a> {
        resolution_scope: Option<Token> = "ResolutionScope",
        type_name: &'a str = "TypeName",
        type_namespace: &'a str = "TypeNamespace",
    }

    /// A type (II.22.37).
    TypeDef<'a> {
        flags: u32 = "Flags",
        type_name: &'a str = "TypeName",
        type_namespace: &'a str = "TypeNamespace",
        extends: Option<Token> = "Extends",
        field_list: u32 = "FieldList",
        method_list: u32 = "MethodList",
    }

    /// A field (II.22.15).
    Field<'a> {
        flags: u32 = "Flags",
        name: &'a str = "Name",
        signature: Signature<'a> = "Signature",
    }

    /// A method (II.22.26).
    MethodDef<'a> {
        rva: u32 = "RVA",
        impl_flags: u32 = "ImplFlags",
        flags: u32 = "Flags",
        name: &'a str = "Name",
        signature: Signature<'a> = "Signature",
        param_list: u32 = "ParamList",
    }

    /// A parameter (II.22.33).
    Param<'a> {
        flags: u32 = "Flags",
        sequence: u32 = "Sequence",
        name: &'a str = "Name",
    }

    /// An interface that a type implements (II.22.23).
    InterfaceImpl {
        class: Token = "Class",
        interface: Token = "Interface",
    }

    /// A field or a method of another type (II.22.25).
    MemberRef<'a> {
        class: Token = "Class",
        name: &'a str = "Name",
        signature: Signature<'a> = "Signature",
    }

    /// A constant value (II.22.9).
    Constant<'a> {
        kind: u32 = "Type",
        parent: Token = "Parent",
        value: &'a [u8] = "Value",
    }

    /// A custom attribute (II.22.10).
    CustomAttribute<'a> {
        parent: Token = "Parent",
        kind: Token = "Type",
        value: &'a [u8] = "Value",
    }

    /// How a field or a parameter is marshalled (II.22.17).
    FieldMarshal<'a> {
        parent: Token = "Parent",
        native_type: &'a [u8] = "NativeType",
    }

    /// A permission set (II.22.11).
    DeclSecurity<'a> {
        action: u32 = "Action",
        parent: Token = "Parent",
        permission_set: &'a [u8] = "PermissionSet",
    }

    /// The layout of a type (II.22.8).
    ClassLayout {
        packing_size: u32 = "PackingSize",
        class_size: u32 = "ClassSize",
        parent: Token = "Parent",
    }

    /// The offset of a field in its type (II.22.16).
    FieldLayout {
        offset: u32 = "Offset",
        field: Token = "Field",
    }

    /// A signature that no other row has (II.22.36).
    StandAloneSig<'a> {
        signature: Signature<'a> = "Signature",
    }

    /// The events of a type (II.22.12).
    EventMap {
        parent: Token = "Parent",
        event_list: u32 = "EventList",
    }

    /// An event (II.22.13).
    Event<'a> {
        event_flags: u32 = "EventFlags",
        name: &'a str = "Name",
        event_type: Option<Token> = "EventType",
    }

    /// The properties of a type (II.22.35).
    PropertyMap {
        parent: Token = "Parent",
        property_list: u32 = "PropertyList",
    }

    /// A property (II.22.34).
    Property<'a> {
        flags: u32 = "Flags",
        name: &'a str = "Name",
        kind: Signature<'a> = "Type",
    }

    /// A method of an event or a property (II.22.28).
    MethodSemantics {
        semantics: u32 = "Semantics",
        method: Token = "Method",
        association: Token = "Association",
    }

    /// A method that implements another (II.22.27).
    MethodImpl {
        class: Token = "Class",
        method_body: Token = "MethodBody",
        method_declaration: Token = "MethodDeclaration",
    }

    /// Another module (II.22.31).
    ModuleRef<'a> {
        name: &'a str = "Name",
    }

    /// A type that a signature describes (II.22.39).
    TypeSpec<'a> {
        signature: Signature<'a> = "Signature",
    }

    /// A method of unmanaged code (II.22.22).
    ImplMap<'a> {
        mapping_flags: u32 = "MappingFlags",
        member_forwarded: Token = "MemberForwarded",
        import_name: &'a str = "ImportName",
        import_scope: Token = "ImportScope",
    }

    /// The address of the initial value of a field (II.22.18).
    FieldRVA {
        rva: u32 = "RVA",
        field: Token = "Field",
    }

    /// The assembly (II.22.2).
    Assembly<'a> {
        hash_alg_id: u32 = "HashAlgId",
        major_version: u32 = "MajorVersion",
        minor_version: u32 = "MinorVersion",
        build_number: u32 = "BuildNumber",
        revision_number: u32 = "RevisionNumber",
        flags: u32 = "Flags",
        public_key: &'a [u8] = "PublicKey",
        name: &'a str = "Name",
        culture: &'a str = "Culture",
    }

    /// A processor (II.22.4).
    AssemblyProcessor {
        processor: u32 = "Processor",
    }

    /// An operating system (II.22.3).
    AssemblyOS {
        os_platform_id: u32 = "OSPlatformID",
        os_major_version: u32 = "OSMajorVersion",
        os_minor_version: u32 = "OSMinorVersion",
    }

    /// Another assembly (II.22.5).
    AssemblyRef<'a> {
        major_version: u32 = "MajorVersion",
        minor_version: u32 = "MinorVersion",
        build_number: u32 = "BuildNumber",
        revision_number: u32 = "RevisionNumber",
        flags: u32 = "Flags",
        public_key_or_token: &'a [u8] = "PublicKeyOrToken",
        name: &'a str = "Name",
        culture: &'a str = "Culture",
        hash_value: &'a [u8] = "HashValue",
    }

    /// A processor of another assembly (II.22.7).
    AssemblyRefProcessor {
        processor: u32 = "Processor",
        assembly_ref: Token = "AssemblyRef",
    }

    /// An operating system of another assembly (II.22.6).
    AssemblyRefOS {
        os_platform_id: u32 = "OSPlatformID",
        os_major_version: u32 = "OSMajorVersion",
        os_minor_version: u32 = "OSMinorVersion",
        assembly_ref: Token = "AssemblyRef",
    }

    /// A file of the assembly (II.22.19).
    File<'a> {
        flags: u32 = "Flags",
        name: &'a str = "Name",
        hash_value: &'a [u8] = "HashValue",
    }

    /// A type of another module of the assembly, or one that moved (II.22.14).
    ExportedType<'a> {
        flags: u32 = "Flags",
        type_def_id: u32 = "TypeDefId",
        type_name: &'a str = "TypeName",
        type_namespace: &'a str = "TypeNamespace",
        implementation: Option<Token> = "Implementation",
    }

    /// A resource (II.22.24).
    ManifestResource<'a> {
        offset: u32 = "Offset",
        flags: u32 = "Flags",
        name: &'a str = "Name",
        implementation: Option<Token> = "Implementation",
    }

    /// A nested type (II.22.32).
    NestedClass {
        nested_class: Token = "NestedClass",
        enclosing_class: Token = "EnclosingClass",
    }

    /// A generic parameter (II.22.20).
    GenericParam<'a> {
        number: u32 = "Number",
        flags: u32 = "Flags",
        owner: Token = "Owner",
        name: &'a str = "Name",
    }

    /// A generic method with its arguments (II.22.29).
    MethodSpec<'a> {
        method: Token = "Method",
        instantiation: Signature<'a> = "Instantiation",
    }

    /// A constraint of a generic parameter (II.22.21).
    GenericParamConstraint {
        owner: Token = "Owner",
        constraint: Token = "Constraint",
    }
}
