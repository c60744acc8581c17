//! Tests of `writer` over views: views of roots are written as their models are.

use opening::{View, open_root};
use owned_model::{TableId, load_root};
use sample_roots::{
    NAMES_APART, NAMES_SHARED, NO_ROWS, OF_ASSEMBLY, OF_MODULE, ONE_MODULE, OTHERS_SORTED,
    RootBuilder, THREE_TYPES, TWO_TYPES, root_of_attributes, root_of_implementation,
    root_of_params, root_of_signature, root_of_wide_indexes,
};
use sample_tables::root_of_whole_tables;
use std::alloc::Global;
use std::process::Abort;
use std::test::Fail;
use writer::{WriteError, prepare};

/// The view of a root that has a model.
fn opened(root: &[u8]) -> Result<View<'_>, Fail> {
    match open_root(root) {
        Ok(view) => Ok(view),
        Err(_) => Err(Fail::from("a root that is not opened")),
    }
}

/// That the root of a view and that of its model are the same bytes, and are refused below their length alone.
fn check(rt: &impl Abort, alloc: Global, root: &[u8]) -> Result<(), Fail> {
    let view = opened(root)?;
    let model = load_root(alloc, root)?;
    let of_model = prepare(alloc, &model, 1 << 30)?;
    let of_view = prepare(alloc, &view, 1 << 30)?;
    assert_eq!(rt; of_view.bytes(), of_model.bytes());
    let len = of_model.len();
    assert_eq!(rt; prepare(alloc, &view, len)?.bytes(), of_model.bytes());
    let too_large = Some(WriteError::TooLarge);
    assert_eq!(rt;
        prepare(alloc, &view, len.saturating_sub(1)).err(),
        too_large
    );
    assert_eq!(rt; prepare(alloc, &view, 0).err(), too_large);
    Ok(())
}

#[test]
fn a_view_is_written_as_its_model(rt: HostRuntime) -> Result<(), Fail> {
    let alloc = rt.alloc();
    for root in [
        ONE_MODULE.as_slice(),
        &TWO_TYPES,
        &THREE_TYPES,
        &NAMES_SHARED,
        &NAMES_APART,
        &NO_ROWS,
    ] {
        check(&rt, alloc, root)?;
    }
    check(&rt, alloc, &root_of_wide_indexes(alloc)?)?;
    check(&rt, alloc, &root_of_whole_tables(alloc)?)
}

#[test]
fn the_start_after_65535_members_is_that_of_the_model(rt: HostRuntime) -> Result<(), Fail> {
    let alloc = rt.alloc();
    let root = root_of_params(alloc)?;
    let written = prepare(alloc, &opened(&root)?, 1 << 30)?;
    // The root is the canonical one of its model.
    assert!(rt; written.bytes() == root.as_slice());
    Ok(())
}

#[test]
fn nulls_and_signatures_are_written_as_those_of_the_model(rt: HostRuntime) -> Result<(), Fail> {
    let alloc = rt.alloc();
    for tag in [0, 1, 2] {
        check(&rt, alloc, &root_of_implementation(alloc, tag)?)?;
    }
    let encoded = b"\x15\x12\x80\x05\x01\x08";
    check(
        &rt,
        alloc,
        &root_of_signature(alloc, TableId::TypeSpec, encoded)?,
    )
}

#[test]
fn a_view_reports_which_tables_are_in_order(rt: HostRuntime) -> Result<(), Fail> {
    let alloc = rt.alloc();
    for attributes in [
        [OF_ASSEMBLY, OF_ASSEMBLY, OF_MODULE],
        [OF_MODULE, OF_ASSEMBLY, OF_ASSEMBLY],
    ] {
        for sorted in [0, OTHERS_SORTED] {
            check(&rt, alloc, &root_of_attributes(alloc, sorted, &attributes)?)?;
        }
    }
    Ok(())
}

/// A root of no rows whose `#US` has `len` bytes, of which the last is 5. Its padding follows it, or the end.
fn root_of_user_bytes(alloc: Global, len: usize) -> Result<Vec<u8>, Fail> {
    let mut user = Vec::new(alloc);
    user.resize(len - 1, 0)?;
    user.push(5)?;
    let mut builder = RootBuilder::new(alloc);
    builder.heap("#US", &user)?;
    let mut root = builder.finish()?;
    // The header of `#US` is at 44, after that of `#~`, and its size at 48.
    root[48] = len.min(0xFF) as u8;
    Ok(root)
}

#[test]
fn user_strings_are_padded_with_zeros(rt: HostRuntime) -> Result<(), Fail> {
    let alloc = rt.alloc();
    for len in [1, 2, 3, 4, 5, 7, 8] {
        let root = root_of_user_bytes(alloc, len)?;
        let view = opened(&root)?;
        assert_eq!(rt; view.user().len(), len);
        check(&rt, alloc, &root)?;
        let written = prepare(alloc, &view, 1 << 30)?;
        let again = opened(written.bytes())?;
        assert_eq!(rt; again.user().len(), len.saturating_add(3) / 4 * 4);
        assert_eq!(rt; again.user().get(len - 1), Some(&5));
        assert!(rt; again.user().iter().skip(len).all(|byte| *byte == 0));
    }
    Ok(())
}
