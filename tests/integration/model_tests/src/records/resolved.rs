use crate::records::field_names::shown_record;
use crate::records::full_root::full_root;
use records::{
    CellRow, CodedRow, CustomAttributeType, Implementation, MemberRefParent, MethodDefOrRef,
    ResolutionScope, TypeDefOrRef, TypeOrMethodDef,
};
use opening::{View, open_root};
use owned_model::{Model, RefRow, load_root};
use schema::{Coded, TableId, Token};
use std::alloc::Global;
use std::fmt::Debug;
use std::process::Abort;
use std::test::Fail;

/// A row that no table has.
const MISSING: [u32; 3] = [0, 3, u32::MAX];

/// Resolves the first row of each table, and rows that are not there, in a model: of the tables that the
/// index lists it is the record of the row, in the variant of its table.
fn check<'m, R: CodedRow<'m, CellRow<'m>> + Debug + Drop>(
    rt: &impl Abort,
    alloc: Global,
    model: &'m Model,
) -> Result<(), Fail> {
    let coded = R::coded_id();
    for table in TableId::all() {
        let table = *table;
        let found = model.resolve::<R>(Token { table, row: 1 });
        let is_listed = coded.tables().contains(&Some(table));
        assert_eq!(rt; found.is_some(), is_listed, "{table}");
        for row in MISSING {
            let found = model.resolve::<R>(Token { table, row });
            assert!(rt; found.is_none(), "{table}");
        }
        if let Some(found) = found {
            let record = shown_record(alloc, table, model.cells(table, 1))?;
            let wanted = format!(in alloc; "{table}({record})")?;
            let found = format!(in alloc; "{found:?}")?;
            assert_eq!(rt; found.as_str(), wanted.as_str());
        }
    }
    Ok(())
}

/// The same in a view; a record that has a signature shows its blob, and only its variant is looked at.
fn check_in_place<'a, R: CodedRow<'a, RefRow<'a>> + Debug + Drop>(
    rt: &impl Abort,
    alloc: Global,
    model: &Model,
    view: &View<'a>,
) -> Result<(), Fail> {
    let coded = R::coded_id();
    for table in TableId::all() {
        let table = *table;
        let found = owned_model::resolve::<R, _>(view, Token { table, row: 1 });
        let is_listed = coded.tables().contains(&Some(table));
        assert_eq!(rt; found.is_some(), is_listed, "{table}");
        for row in MISSING {
            let found = owned_model::resolve::<R, _>(view, Token { table, row });
            assert!(rt; found.is_none(), "{table}");
        }
        if let Some(found) = found {
            let found = format!(in alloc; "{found:?}")?;
            let variant = format!(in alloc; "{table}({table} {{ ")?;
            assert!(rt; found.as_str().starts_with(variant.as_str()), "{found}");
            let record = shown_record(alloc, table, model.cells(table, 1))?;
            let wanted = format!(in alloc; "{table}({record})")?;
            if matches!(coded, Coded::ResolutionScope | Coded::Implementation) {
                assert_eq!(rt; found.as_str(), wanted.as_str());
            }
        }
    }
    Ok(())
}

#[test]
fn references_of_a_model(rt: HostRuntime) -> Result<(), Fail> {
    let alloc = rt.alloc();
    let root = full_root(alloc)?;
    let model = load_root(alloc, root.as_slice())?;
    check::<TypeDefOrRef<_>>(&rt, alloc, &model)?;
    check::<ResolutionScope>(&rt, alloc, &model)?;
    check::<Implementation>(&rt, alloc, &model)?;
    check::<MemberRefParent<_>>(&rt, alloc, &model)?;
    check::<MethodDefOrRef<_>>(&rt, alloc, &model)?;
    check::<CustomAttributeType<_>>(&rt, alloc, &model)?;
    check::<TypeOrMethodDef<_>>(&rt, alloc, &model)?;
    Ok(())
}

#[test]
fn references_in_place(rt: HostRuntime) -> Result<(), Fail> {
    let alloc = rt.alloc();
    let root = full_root(alloc)?;
    let model = load_root(alloc, root.as_slice())?;
    let view = open_root(root.as_slice())?;
    check_in_place::<TypeDefOrRef<_>>(&rt, alloc, &model, &view)?;
    check_in_place::<ResolutionScope>(&rt, alloc, &model, &view)?;
    check_in_place::<Implementation>(&rt, alloc, &model, &view)?;
    check_in_place::<MemberRefParent<_>>(&rt, alloc, &model, &view)?;
    check_in_place::<MethodDefOrRef<_>>(&rt, alloc, &model, &view)?;
    check_in_place::<CustomAttributeType<_>>(&rt, alloc, &model, &view)?;
    check_in_place::<TypeOrMethodDef<_>>(&rt, alloc, &model, &view)?;
    Ok(())
}
