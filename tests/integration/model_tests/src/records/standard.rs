use schema::TableId;

/// The tables as II.22 lists them, one a line: the name and the names of the columns.
const TABLES: &str = "\
Module: Generation Name Mvid EncId EncBaseId
TypeRef: ResolutionScope TypeName TypeNamespace
TypeDef: Flags TypeName TypeNamespace Extends FieldList MethodList
Field: Flags Name Signature
MethodDef: RVA ImplFlags Flags Name Signature ParamList
Param: Flags Sequence Name
InterfaceImpl: Class Interface
MemberRef: Class Name Signature
Constant: Type padding Parent Value
CustomAttribute: Parent Type Value
FieldMarshal: Parent NativeType
DeclSecurity: Action Parent PermissionSet
ClassLayout: PackingSize ClassSize Parent
FieldLayout: Offset Field
StandAloneSig: Signature
EventMap: Parent EventList
Event: EventFlags Name EventType
PropertyMap: Parent PropertyList
Property: Flags Name Type
MethodSemantics: Semantics Method Association
MethodImpl: Class MethodBody MethodDeclaration
ModuleRef: Name
TypeSpec: Signature
ImplMap: MappingFlags MemberForwarded ImportName ImportScope
FieldRVA: RVA Field
Assembly: HashAlgId MajorVersion MinorVersion BuildNumber RevisionNumber Flags PublicKey Name Culture
AssemblyProcessor: Processor
AssemblyOS: OSPlatformID OSMajorVersion OSMinorVersion
AssemblyRef: MajorVersion MinorVersion BuildNumber RevisionNumber Flags PublicKeyOrToken Name Culture HashValue
AssemblyRefProcessor: Processor AssemblyRef
AssemblyRefOS: OSPlatformID OSMajorVersion OSMinorVersion AssemblyRef
File: Flags Name HashValue
ExportedType: Flags TypeDefId TypeName TypeNamespace Implementation
ManifestResource: Offset Flags Name Implementation
NestedClass: NestedClass EnclosingClass
GenericParam: Number Flags Owner Name
MethodSpec: Method Instantiation
GenericParamConstraint: Owner Constraint
";

/// The names that the standard gives the columns of a table, in order, with a space between two.
pub fn standard_names(table: TableId) -> Option<&'static str> {
    let line = TABLES.lines().nth(table.table_index())?;
    let (name, names) = line.split_once(": ")?;
    (name == table.name()).then_some(names)
}
