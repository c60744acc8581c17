//! Tests of `column_names` and `schema`: the tables and their columns as the standard lists them.

use schema::{Column, ColumnKind, Layout, TableId, column_names, columns, key};
use std::alloc::{AllocError, Global};
use std::fmt;
use std::test::Fail;

/// The tables as II.22 lists them, one a line: the number in hexadecimal, the name, how many bytes a row
/// takes in a stream without rows if no heap index and if each heap index has four, and the columns.
///
/// After a column's name follows what its cells are: u1, u2 and u4 are numbers of 1, 2 and 4 bytes, and -
/// is a byte of padding; S, G and B are indexes into `#Strings`, `#GUID` and `#Blob`; B:K is one into
/// `#Blob` of a signature of the kind K; =T is a row of the table T; ~L is a coded index of the list L;
/// +T is the first row of a run in T. A column that may be null has a 0 after it. The column by
/// which the rows are in order has a * before it.
const TABLES: &str = "\
00 Module 10 18: Generation u2, Name S, Mvid G, EncId G, EncBaseId G
01 TypeRef 6 10: ResolutionScope ~ResolutionScope 0, TypeName S, TypeNamespace S
02 TypeDef 14 18: Flags u4, TypeName S, TypeNamespace S, Extends ~TypeDefOrRef 0, FieldList +Field, MethodList +MethodDef
04 Field 6 10: Flags u2, Name S, Signature B:Field
06 MethodDef 14 18: RVA u4, ImplFlags u2, Flags u2, Name S, Signature B:MethodDef, ParamList +Param
08 Param 6 8: Flags u2, Sequence u2, Name S
09 InterfaceImpl 4 4: *Class =TypeDef, Interface ~TypeDefOrRef
0a MemberRef 6 10: Class ~MemberRefParent, Name S, Signature B:MemberRef
0b Constant 6 8: Type u1, padding -, *Parent ~HasConstant, Value B
0c CustomAttribute 6 8: *Parent ~HasCustomAttribute, Type ~CustomAttributeType, Value B
0d FieldMarshal 4 6: *Parent ~HasFieldMarshal, NativeType B
0e DeclSecurity 6 8: Action u2, *Parent ~HasDeclSecurity, PermissionSet B
0f ClassLayout 8 8: PackingSize u2, ClassSize u4, *Parent =TypeDef
10 FieldLayout 6 6: Offset u4, *Field =Field
11 StandAloneSig 2 4: Signature B:StandAlone
12 EventMap 4 4: Parent =TypeDef, EventList +Event
14 Event 6 8: EventFlags u2, Name S, EventType ~TypeDefOrRef 0
15 PropertyMap 4 4: Parent =TypeDef, PropertyList +Property
17 Property 6 10: Flags u2, Name S, Type B:Property
18 MethodSemantics 6 6: Semantics u2, Method =MethodDef, *Association ~HasSemantics
19 MethodImpl 6 6: *Class =TypeDef, MethodBody ~MethodDefOrRef, MethodDeclaration ~MethodDefOrRef
1a ModuleRef 2 4: Name S
1b TypeSpec 2 4: Signature B:TypeSpec
1c ImplMap 8 10: MappingFlags u2, *MemberForwarded ~MemberForwarded, ImportName S, ImportScope =ModuleRef
1d FieldRVA 6 6: RVA u4, *Field =Field
20 Assembly 22 28: HashAlgId u4, MajorVersion u2, MinorVersion u2, BuildNumber u2, RevisionNumber u2, Flags u4, PublicKey B, Name S, Culture S
21 AssemblyProcessor 4 4: Processor u4
22 AssemblyOS 12 12: OSPlatformID u4, OSMajorVersion u4, OSMinorVersion u4
23 AssemblyRef 20 28: MajorVersion u2, MinorVersion u2, BuildNumber u2, RevisionNumber u2, Flags u4, PublicKeyOrToken B, Name S, Culture S, HashValue B
24 AssemblyRefProcessor 6 6: Processor u4, AssemblyRef =AssemblyRef
25 AssemblyRefOS 14 14: OSPlatformID u4, OSMajorVersion u4, OSMinorVersion u4, AssemblyRef =AssemblyRef
26 File 8 12: Flags u4, Name S, HashValue B
27 ExportedType 14 18: Flags u4, TypeDefId u4, TypeName S, TypeNamespace S, Implementation ~Implementation 0
28 ManifestResource 12 14: Offset u4, Flags u4, Name S, Implementation ~Implementation 0
29 NestedClass 4 4: *NestedClass =TypeDef, EnclosingClass =TypeDef
2a GenericParam 8 10: Number u2, Flags u2, *Owner ~TypeOrMethodDef, Name S
2b MethodSpec 4 6: Method ~MethodDefOrRef, Instantiation B:Instance
2c GenericParamConstraint 4 4: *Owner =GenericParam, Constraint ~TypeDefOrRef
";

/// What the cells of a column are, in the words of the list.
#[derive(Clone, Copy)]
struct Shown(Column);

impl fmt::Display for Shown {
    fn fmt<W: fmt::Write>(&self, f: &mut fmt::Formatter<W>) -> fmt::Result {
        match self.0.kind {
            ColumnKind::U8 => write!(f, "u1")?,
            ColumnKind::U16 => write!(f, "u2")?,
            ColumnKind::U32 => write!(f, "u4")?,
            ColumnKind::Padding => write!(f, "-")?,
            ColumnKind::Text => write!(f, "S")?,
            ColumnKind::Guid => write!(f, "G")?,
            ColumnKind::Blob => write!(f, "B")?,
            ColumnKind::Signature(kind) => write!(f, "B:{kind:?}")?,
            ColumnKind::Row(table) => write!(f, "={table}")?,
            ColumnKind::Coded(coded) => write!(f, "~{coded:?}")?,
            ColumnKind::List(table) => write!(f, "+{table}")?,
        }
        if self.0.nullable {
            write!(f, " 0")?;
        }
        Ok(())
    }
}

/// The line of a table.
fn table_line(alloc: Global, table: TableId) -> Result<String, AllocError> {
    let number = table.number();
    let narrow = Layout::of(&[0; 45], 0).row_width(table);
    let wide = Layout::of(&[0; 45], 7).row_width(table);
    let mut line = format!(in alloc; "{number:02x} {table} {narrow} {wide}:")?;
    for (index, (name, column)) in column_names(table).iter().zip(columns(table)).enumerate() {
        let comma = if index == 0 { "" } else { "," };
        let star = if key(table) == Some(index) { "*" } else { "" };
        let shown = Shown(*column);
        write!(line, "{comma} {star}{name} {shown}")?;
    }
    Ok(line)
}

#[test]
fn tables_are_those_of_the_standard(rt: HostRuntime) -> Result<(), Fail> {
    assert_eq!(rt; TABLES.lines().count(), 38);
    assert_eq!(rt; TableId::all().len(), 38);
    for (listed, table) in TABLES.lines().zip(TableId::all()) {
        let line = table_line(rt.alloc(), *table)?;
        assert_eq!(rt; line.as_str(), listed);
    }
    Ok(())
}
