use crate::schema::layouts::CODED;
use schema::Coded;
use std::alloc::{AllocError, Global};
use std::test::Fail;

/// The lists of the coded indexes as II.24.2.6 has them, one a line: the name, how many bits the tag
/// takes, and the tables by their tags from 0 on; - is a tag that is not used.
const LISTS: &str = "\
TypeDefOrRef 2: TypeDef, TypeRef, TypeSpec
HasConstant 2: Field, Param, Property
HasCustomAttribute 5: MethodDef, Field, TypeRef, TypeDef, Param, InterfaceImpl, MemberRef, Module, DeclSecurity, Property, Event, StandAloneSig, ModuleRef, TypeSpec, Assembly, AssemblyRef, File, ExportedType, ManifestResource, GenericParam, GenericParamConstraint, MethodSpec
HasFieldMarshal 1: Field, Param
HasDeclSecurity 2: TypeDef, MethodDef, Assembly
MemberRefParent 3: TypeDef, TypeRef, ModuleRef, MethodDef, TypeSpec
HasSemantics 1: Event, Property
MethodDefOrRef 1: MethodDef, MemberRef
MemberForwarded 1: Field, MethodDef
Implementation 2: File, AssemblyRef, ExportedType
CustomAttributeType 3: -, -, MethodDef, MemberRef, -
ResolutionScope 2: Module, ModuleRef, AssemblyRef, TypeRef
TypeOrMethodDef 1: TypeDef, MethodDef
";

/// The line of a coded index.
fn list_line(alloc: Global, coded: Coded) -> Result<String, AllocError> {
    let bits = coded.tag_bits();
    let mut line = format!(in alloc; "{coded:?} {bits}:")?;
    for (tag, listed) in coded.tables().iter().enumerate() {
        let comma = if tag == 0 { "" } else { "," };
        match listed {
            Some(table) => write!(line, "{comma} {table}")?,
            None => write!(line, "{comma} -")?,
        }
    }
    Ok(line)
}

#[test]
fn lists_are_those_of_the_standard(rt: HostRuntime) -> Result<(), Fail> {
    assert_eq!(rt; LISTS.lines().count(), CODED.len());
    for (listed, coded) in LISTS.lines().zip(CODED) {
        let line = list_line(rt.alloc(), coded)?;
        assert_eq!(rt; line.as_str(), listed);
    }
    Ok(())
}
