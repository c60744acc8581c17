use crate::records::field_names::shown_record;
use crate::records::full_root::full_root;
use records::{
    Assembly, AssemblyOS, AssemblyProcessor, AssemblyRef, AssemblyRefOS, AssemblyRefProcessor,
    ClassLayout, Constant, CustomAttribute, DeclSecurity, Event, EventMap, ExportedType, Field,
    FieldLayout, FieldMarshal, FieldRVA, File, GenericParam, GenericParamConstraint, ImplMap,
    InterfaceImpl, ManifestResource, MemberRef, MethodDef, MethodImpl, MethodSemantics, MethodSpec,
    Module, ModuleRef, NestedClass, Param, Property, PropertyMap, Record, StandAloneSig, TypeDef,
    TypeRef, TypeSpec,
};
use owned_model::{Model, load_root};
use std::alloc::Global;
use std::fmt::Debug;
use std::process::Abort;
use std::test::Fail;

/// Reads the first row of a table as a record and back, holds its fields against the columns, and asks for
/// rows that are not there.
fn check<'m, R: Record<'m> + Debug + Drop>(
    rt: &impl Abort,
    alloc: Global,
    model: &'m Model,
) -> Result<(), Fail> {
    let table = R::table_id();
    let rows = model.tables().rows(table);
    let cells = rows.first().ok_or("no row")?.as_slice();
    let Some(record) = R::from_cells(cells) else {
        return Err("no record".into());
    };
    let back = record.cells(alloc)?;
    assert!(rt; back.as_slice() == cells, "{table}");
    let wanted = shown_record(alloc, table, cells)?;
    let got = format!(in alloc; "{record:?}")?;
    assert_eq!(rt; got.as_str(), wanted.as_str());
    let (_, fewer) = cells.split_last().ok_or("no cells")?;
    assert!(rt; R::from_cells(fewer).is_none(), "{table}");
    let found = model.row::<R>(1).ok_or("no record of the row")?;
    let found = format!(in alloc; "{found:?}")?;
    assert_eq!(rt; found.as_str(), wanted.as_str());
    let mut records = model.rows::<R>();
    assert_eq!(rt; records.len(), rows.len());
    let first = records.next().ok_or("no first record")?;
    let first = format!(in alloc; "{first:?}")?;
    assert_eq!(rt; first.as_str(), wanted.as_str());
    assert_eq!(rt; records.count(), rows.len().saturating_sub(1));
    assert!(rt; model.row::<R>(0).is_none(), "{table}");
    assert!(rt; model.row::<R>(3).is_none(), "{table}");
    assert!(rt;
        model.row::<R>(u32::MAX).is_none(),
        "{table}"
    );
    Ok(())
}

#[test]
fn rows_are_records_and_back(rt: HostRuntime) -> Result<(), Fail> {
    let alloc = rt.alloc();
    let root = full_root(alloc)?;
    let Ok(model) = load_root(alloc, root.as_slice()) else {
        return Err("no model".into());
    };
    check::<Module>(&rt, alloc, &model)?;
    check::<TypeRef>(&rt, alloc, &model)?;
    check::<TypeDef>(&rt, alloc, &model)?;
    check::<Field>(&rt, alloc, &model)?;
    check::<MethodDef>(&rt, alloc, &model)?;
    check::<Param>(&rt, alloc, &model)?;
    check::<InterfaceImpl>(&rt, alloc, &model)?;
    check::<MemberRef>(&rt, alloc, &model)?;
    check::<Constant>(&rt, alloc, &model)?;
    check::<CustomAttribute>(&rt, alloc, &model)?;
    check::<FieldMarshal>(&rt, alloc, &model)?;
    check::<DeclSecurity>(&rt, alloc, &model)?;
    check::<ClassLayout>(&rt, alloc, &model)?;
    check::<FieldLayout>(&rt, alloc, &model)?;
    check::<StandAloneSig<_>>(&rt, alloc, &model)?;
    check::<EventMap>(&rt, alloc, &model)?;
    check::<Event>(&rt, alloc, &model)?;
    check::<PropertyMap>(&rt, alloc, &model)?;
    check::<Property>(&rt, alloc, &model)?;
    check::<MethodSemantics>(&rt, alloc, &model)?;
    check::<MethodImpl>(&rt, alloc, &model)?;
    check::<ModuleRef>(&rt, alloc, &model)?;
    check::<TypeSpec<_>>(&rt, alloc, &model)?;
    check::<ImplMap>(&rt, alloc, &model)?;
    check::<FieldRVA>(&rt, alloc, &model)?;
    check::<Assembly>(&rt, alloc, &model)?;
    check::<AssemblyProcessor>(&rt, alloc, &model)?;
    check::<AssemblyOS>(&rt, alloc, &model)?;
    check::<AssemblyRef>(&rt, alloc, &model)?;
    check::<AssemblyRefProcessor>(&rt, alloc, &model)?;
    check::<AssemblyRefOS>(&rt, alloc, &model)?;
    check::<File>(&rt, alloc, &model)?;
    check::<ExportedType>(&rt, alloc, &model)?;
    check::<ManifestResource>(&rt, alloc, &model)?;
    check::<NestedClass>(&rt, alloc, &model)?;
    check::<GenericParam>(&rt, alloc, &model)?;
    check::<MethodSpec<_>>(&rt, alloc, &model)?;
    check::<GenericParamConstraint>(&rt, alloc, &model)?;
    Ok(())
}
