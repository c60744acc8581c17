use crate::records::full_root::full_root;
use records::{
    Assembly, AssemblyOS, AssemblyProcessor, AssemblyRef, AssemblyRefOS, AssemblyRefProcessor,
    ClassLayout, Constant, CustomAttribute, DeclSecurity, Event, EventMap, ExportedType, Field,
    FieldLayout, FieldMarshal, FieldRVA, File, FromRow, GenericParam, GenericParamConstraint,
    ImplMap, InterfaceImpl, ManifestResource, MemberRef, MethodDef, MethodImpl, MethodSemantics,
    MethodSpec, Module, ModuleRef, NestedClass, Param, Property, PropertyMap, Record, SigKind,
    Signature, StandAloneSig, TypeDef, TypeRef, TypeSpec,
};
use opening::{CellRef, TableId, View, open_root};
use owned_model::{Model, RefRow, load_root};
use signatures::decode;
use std::alloc::Global;
use std::fmt::Debug;
use std::process::Abort;
use std::test::Fail;

/// The record of the first row of a model's table.
fn owned<'a, R: Record<'a>>(model: &'a Model) -> Result<R, Fail> {
    Ok(model.row(1).ok_or("no row of the model")?)
}

/// The record of the first row of a view's table.
fn seen<'a, R: FromRow<'a, RefRow<'a>>>(view: &View<'a>) -> Result<R, Fail> {
    Ok(owned_model::row(view, 1).ok_or("no row of the view")?)
}

/// Holds the records of a table without signatures against one another, and what they stand for against the
/// cells of the row.
fn is_same<'a, R: Record<'a> + FromRow<'a, RefRow<'a>> + PartialEq + Debug + Copy + Drop>(
    rt: &impl Abort,
    alloc: Global,
    model: &'a Model,
    view: &View<'a>,
) -> Result<(), Fail> {
    let owned: R = owned(model)?;
    let seen: R = seen(view)?;
    assert_eq!(rt; owned, seen);
    let table = <R as FromRow<'a, RefRow<'a>>>::table_id();
    let row = model.cells(table, 1);
    assert_eq!(rt; R::from_cells(row), Some(seen));
    let cells = seen.cells(alloc)?;
    assert!(rt; cells.as_slice() == row);
    let mut records = owned_model::rows::<R, _>(view);
    let count = model.rows::<R>().len();
    assert_eq!(rt; records.len(), count);
    assert_eq!(rt; records.next(), Some(owned));
    assert_eq!(rt; records.count(), count.saturating_sub(1));
    assert!(rt; owned_model::row::<R, _>(view, 0).is_none());
    assert!(rt; owned_model::row::<R, _>(view, 3).is_none());
    assert!(rt; owned_model::row::<R, _>(view, u32::MAX).is_none());
    Ok(())
}

/// Whether a blob encodes a signature in a column of a kind.
fn encodes(alloc: Global, blob: &[u8], column: SigKind, signature: &Signature) -> bool {
    match decode(alloc, blob, column) {
        Ok(decoded) => decoded == *signature,
        Err(_) => false,
    }
}

/// The blob of a signature in a table's first row, by the index of its cell.
fn blob_of<'a>(view: &View<'a>, table: TableId, offset: usize) -> &'a [u8] {
    match view.cell(table, 1, offset) {
        CellRef::Sig(blob) => blob,
        _ => &[],
    }
}

#[test]
fn records_in_place_are_those_in_memory(rt: HostRuntime) -> Result<(), Fail> {
    let alloc = rt.alloc();
    let root = full_root(alloc)?;
    let Ok(model) = load_root(alloc, root.as_slice()) else {
        return Err("no model".into());
    };
    let Ok(view) = open_root(root.as_slice()) else {
        return Err("no view".into());
    };
    is_same::<Module>(&rt, alloc, &model, &view)?;
    is_same::<TypeRef>(&rt, alloc, &model, &view)?;
    is_same::<TypeDef>(&rt, alloc, &model, &view)?;
    is_same::<Param>(&rt, alloc, &model, &view)?;
    is_same::<InterfaceImpl>(&rt, alloc, &model, &view)?;
    is_same::<Constant>(&rt, alloc, &model, &view)?;
    is_same::<CustomAttribute>(&rt, alloc, &model, &view)?;
    is_same::<FieldMarshal>(&rt, alloc, &model, &view)?;
    is_same::<DeclSecurity>(&rt, alloc, &model, &view)?;
    is_same::<ClassLayout>(&rt, alloc, &model, &view)?;
    is_same::<FieldLayout>(&rt, alloc, &model, &view)?;
    is_same::<EventMap>(&rt, alloc, &model, &view)?;
    is_same::<Event>(&rt, alloc, &model, &view)?;
    is_same::<PropertyMap>(&rt, alloc, &model, &view)?;
    is_same::<MethodSemantics>(&rt, alloc, &model, &view)?;
    is_same::<MethodImpl>(&rt, alloc, &model, &view)?;
    is_same::<ModuleRef>(&rt, alloc, &model, &view)?;
    is_same::<ImplMap>(&rt, alloc, &model, &view)?;
    is_same::<FieldRVA>(&rt, alloc, &model, &view)?;
    is_same::<Assembly>(&rt, alloc, &model, &view)?;
    is_same::<AssemblyProcessor>(&rt, alloc, &model, &view)?;
    is_same::<AssemblyOS>(&rt, alloc, &model, &view)?;
    is_same::<AssemblyRef>(&rt, alloc, &model, &view)?;
    is_same::<AssemblyRefProcessor>(&rt, alloc, &model, &view)?;
    is_same::<AssemblyRefOS>(&rt, alloc, &model, &view)?;
    is_same::<File>(&rt, alloc, &model, &view)?;
    is_same::<ExportedType>(&rt, alloc, &model, &view)?;
    is_same::<ManifestResource>(&rt, alloc, &model, &view)?;
    is_same::<NestedClass>(&rt, alloc, &model, &view)?;
    is_same::<GenericParam>(&rt, alloc, &model, &view)?;
    is_same::<GenericParamConstraint>(&rt, alloc, &model, &view)?;
    Ok(())
}

#[test]
fn signatures_in_place_are_their_blobs(rt: HostRuntime) -> Result<(), Fail> {
    let alloc = rt.alloc();
    let root = full_root(alloc)?;
    let Ok(model) = load_root(alloc, root.as_slice()) else {
        return Err("no model".into());
    };
    let Ok(view) = open_root(root.as_slice()) else {
        return Err("no view".into());
    };
    let (mine, its): (Field, Field<_>) = (owned(&model)?, seen(&view)?);
    assert_eq!(rt; (mine.flags, mine.name), (its.flags, its.name));
    assert!(rt; encodes(alloc, its.signature, SigKind::Field, mine.signature));
    assert!(rt; its.signature == blob_of(&view, TableId::Field, 2));
    let (mine, its): (MethodDef, MethodDef<_>) = (owned(&model)?, seen(&view)?);
    assert_eq!(rt;
        (mine.rva, mine.impl_flags, mine.flags),
        (its.rva, its.impl_flags, its.flags)
    );
    assert_eq!(rt; (mine.name, mine.param_list), (its.name, its.param_list));
    assert!(rt; encodes(alloc, its.signature, SigKind::MethodDef, mine.signature));
    assert!(rt; its.signature == blob_of(&view, TableId::MethodDef, 4));
    let (mine, its): (MemberRef, MemberRef<_>) = (owned(&model)?, seen(&view)?);
    assert_eq!(rt; (mine.class, mine.name), (its.class, its.name));
    assert!(rt; encodes(alloc, its.signature, SigKind::MemberRef, mine.signature));
    assert!(rt; its.signature == blob_of(&view, TableId::MemberRef, 2));
    let (mine, its): (StandAloneSig<_>, StandAloneSig<_>) = (owned(&model)?, seen(&view)?);
    assert!(rt; encodes(alloc, its.signature, SigKind::StandAlone, mine.signature));
    assert!(rt; its.signature == blob_of(&view, TableId::StandAloneSig, 0));
    let (mine, its): (Property, Property<_>) = (owned(&model)?, seen(&view)?);
    assert_eq!(rt; (mine.flags, mine.name), (its.flags, its.name));
    assert!(rt; encodes(alloc, its.kind, SigKind::Property, mine.kind));
    assert!(rt; its.kind == blob_of(&view, TableId::Property, 2));
    let (mine, its): (TypeSpec<_>, TypeSpec<_>) = (owned(&model)?, seen(&view)?);
    assert!(rt; encodes(alloc, its.signature, SigKind::TypeSpec, mine.signature));
    assert!(rt; its.signature == blob_of(&view, TableId::TypeSpec, 0));
    let (mine, its): (MethodSpec<_>, MethodSpec<_>) = (owned(&model)?, seen(&view)?);
    assert_eq!(rt; mine.method, its.method);
    assert!(rt;
        encodes(
            alloc,
            its.instantiation,
            SigKind::Instance,
            mine.instantiation
        )
    );
    Ok(())
}
