use crate::records::laid_out::{BLOB, GUID, STRINGS, root_of};
use records::{ExportedType, Field, MethodDef, Module, SigKind, TypeDef};
use owned_model::load_root;
use opening::open_root;
use signatures::decode;
use std::alloc::Global;
use std::test::Fail;

/// The GUID of the module.
const MVID: [u8; 16] = [0, 1, 2, 3, 4, 5, 6, 7, 8, 9, 10, 11, 12, 13, 14, 15];

#[test]
fn the_row_of_a_module(rt: HostRuntime) -> Result<(), Fail> {
    let alloc = rt.alloc();
    let root = root_of(
        alloc,
        &[(0x00, 1)],
        b"\0\0\x01\0\x01\0\0\0\0\0",
        &[(STRINGS, b"\0a.dll\0"), (GUID, &MVID)],
    )?;
    let wanted = Module {
        generation: 0,
        name: "a.dll",
        mvid: Some(MVID),
        enc_id: None,
        enc_base_id: None,
    };
    let view = open_root(root.as_slice())?;
    assert_eq!(rt; owned_model::row::<Module, _>(&view, 1), Some(wanted));
    let model = load_root(alloc, root.as_slice())?;
    assert_eq!(rt; model.row::<Module>(1), Some(wanted));
    Ok(())
}

/// A root of two types, of which the second has two fields and a method.
fn two_types(alloc: Global) -> Result<Vec<u8>, Fail> {
    root_of(
        alloc,
        &[(0x02, 2), (0x04, 2), (0x06, 1)],
        b"\0\0\0\0\x01\0\0\0\0\0\x01\0\x01\0\
        \x01\0\x10\0\x0A\0\x0C\0\0\0\x01\0\x01\0\
        \x01\0\x0E\0\x01\0\
        \x01\0\x10\0\x01\0\
        \0\0\0\0\0\0\x06\0\x12\0\x04\0\x01\0",
        &[
            (STRINGS, b"\0<Module>\0C\0N\0a\0b\0M\0"),
            (BLOB, b"\0\x02\x06\x08\x03\0\0\x01"),
        ],
    )
}

/// The types of that root.
const TYPES: [TypeDef<'static>; 2] = [
    TypeDef {
        flags: 0,
        type_name: "<Module>",
        type_namespace: "",
        extends: None,
        field_list: 1,
        method_list: 1,
    },
    TypeDef {
        flags: 1048577,
        type_name: "C",
        type_namespace: "N",
        extends: None,
        field_list: 1,
        method_list: 1,
    },
];

#[test]
fn the_rows_of_two_types(rt: HostRuntime) -> Result<(), Fail> {
    let alloc = rt.alloc();
    let root = two_types(alloc)?;
    let view = open_root(root.as_slice())?;
    let model = load_root(alloc, root.as_slice())?;
    let mut shown = owned_model::rows::<TypeDef, _>(&view);
    let mut owned = model.rows::<TypeDef>();
    assert_eq!(rt; (shown.len(), owned.len()), (2, 2));
    for (wanted, full_name) in TYPES.iter().zip(["<Module>", "N.C"]) {
        assert_eq!(rt; shown.next(), Some(*wanted));
        assert_eq!(rt; owned.next(), Some(*wanted));
        let name = format!(in alloc; "{wanted}")?;
        assert_eq!(rt; name.as_str(), full_name);
    }
    assert_eq!(rt; shown.next(), None);
    assert_eq!(rt; owned.next(), None);
    Ok(())
}

#[test]
fn the_members_of_two_types(rt: HostRuntime) -> Result<(), Fail> {
    let alloc = rt.alloc();
    let root = two_types(alloc)?;
    let view = open_root(root.as_slice())?;
    let model = load_root(alloc, root.as_slice())?;
    let Ok(number) = decode(alloc, &[0x06, 0x08], SigKind::Field) else {
        return Err("no signature of a field".into());
    };
    for (row, name) in [(1, "a"), (2, "b")] {
        let shown = owned_model::row::<Field<_>, _>(&view, row).ok_or("no field of the view")?;
        assert_eq!(rt; (shown.flags, shown.name), (1, name));
        assert_eq!(rt; shown.signature, [0x06, 0x08].as_slice());
        let owned = model.row::<Field<_>>(row).ok_or("no field of the model")?;
        assert_eq!(rt; (owned.flags, owned.name), (1, name));
        assert!(rt; *owned.signature == number);
    }
    let Ok(nothing) = decode(alloc, &[0, 0, 1], SigKind::MethodDef) else {
        return Err("no signature of a method".into());
    };
    let shown = owned_model::row::<MethodDef<_>, _>(&view, 1).ok_or("no method of the view")?;
    assert_eq!(rt; (shown.rva, shown.impl_flags, shown.flags), (0, 0, 6));
    assert_eq!(rt; (shown.name, shown.param_list), ("M", 1));
    assert_eq!(rt; shown.signature, [0, 0, 1].as_slice());
    let owned = model.row::<MethodDef<_>>(1).ok_or("no method of the model")?;
    assert_eq!(rt; (owned.rva, owned.impl_flags, owned.flags), (0, 0, 6));
    assert_eq!(rt; (owned.name, owned.param_list), ("M", 1));
    assert!(rt; *owned.signature == nothing);
    Ok(())
}

/// A start of 0 is that of the next owner, and after the last member at the last one.
#[test]
fn starts_that_are_null(rt: HostRuntime) -> Result<(), Fail> {
    let alloc = rt.alloc();
    let root = root_of(
        alloc,
        &[(0x02, 3), (0x04, 2)],
        b"\0\0\0\0\0\0\0\0\0\0\x01\0\x01\0\
        \0\0\0\0\0\0\0\0\0\0\0\0\x01\0\
        \0\0\0\0\0\0\0\0\0\0\x03\0\x01\0\
        \0\0\0\0\x01\0\
        \0\0\0\0\x01\0",
        &[(STRINGS, b"\0"), (BLOB, b"\0\x02\x06\x08")],
    )?;
    let view = open_root(root.as_slice())?;
    let model = load_root(alloc, root.as_slice())?;
    for (row, start) in [(1, 1), (2, 3), (3, 3)] {
        let shown = owned_model::row::<TypeDef, _>(&view, row).ok_or("no type of the view")?;
        assert_eq!(rt; shown.field_list, start);
        let owned = model.row::<TypeDef>(row).ok_or("no type of the model")?;
        assert_eq!(rt; owned, shown);
    }
    Ok(())
}

/// Null of a column that may be null is the same by each tag.
#[test]
fn null_by_each_tag(rt: HostRuntime) -> Result<(), Fail> {
    let alloc = rt.alloc();
    let wanted = ExportedType {
        flags: 2,
        type_def_id: 7,
        type_name: "T",
        type_namespace: "N.M",
        implementation: None,
    };
    let name = format!(in alloc; "{wanted}")?;
    assert_eq!(rt; name.as_str(), "N.M.T");
    for tag in 0..3u8 {
        let rows = [2, 0, 0, 0, 7, 0, 0, 0, 1, 0, 3, 0, tag, 0];
        let root = root_of(alloc, &[(0x27, 1)], &rows, &[(STRINGS, b"\0T\0N.M\0")])?;
        let view = open_root(root.as_slice())?;
        assert_eq!(rt;
            owned_model::row::<ExportedType, _>(&view, 1),
            Some(wanted),
            "tag {tag}"
        );
        let model = load_root(alloc, root.as_slice())?;
        assert_eq!(rt;
            model.row::<ExportedType>(1),
            Some(wanted),
            "tag {tag}"
        );
    }
    Ok(())
}
