use crate::reports::{has_cell, model_in, text_in};
use crate::form::Form;
use tables::{Bytes, Cell};
use sample_roots::{
    ALL_SORTED, NAMES_APART, NAMES_SHARED, NO_ROWS, OF_ASSEMBLY, OF_MODULE, ONE_MODULE,
    OTHERS_SORTED, RootBuilder, TWO_TYPES, changed, root_of_attributes, root_of_implementation,
    root_of_signature, root_of_wide_indexes,
};
use sample_tables::{
    GUID, model_of, model_of_module, model_of_no_rows, model_of_two_types, root_of_whole_tables,
    tables_with,
};
use schema::TableId;
use std::test::Fail;

#[test]
fn one_module_is_its_row(rt: HostRuntime) -> Result<(), Fail> {
    let alloc = rt.alloc();
    let made = model_of_module(alloc, "a.dll", Some(GUID))?;
    assert!(rt; model_in(alloc, Form::Root, &ONE_MODULE)? == made);
    Ok(())
}

#[test]
fn two_types_are_their_rows(rt: HostRuntime) -> Result<(), Fail> {
    let alloc = rt.alloc();
    assert!(rt; model_in(alloc, Form::Root, &TWO_TYPES)? == model_of_two_types(alloc)?);
    Ok(())
}

#[test]
fn a_root_of_no_rows_is_the_empty_model(rt: HostRuntime) -> Result<(), Fail> {
    let alloc = rt.alloc();
    assert!(rt; model_in(alloc, Form::Root, &NO_ROWS)? == model_of_no_rows(alloc)?);
    Ok(())
}

#[test]
fn three_rows_of_each_table_are_theirs(rt: HostRuntime) -> Result<(), Fail> {
    let alloc = rt.alloc();
    let root = root_of_whole_tables(alloc)?;
    let model = model_in(alloc, Form::Root, root.as_slice())?;
    assert!(rt; model == model_of(tables_with(alloc, &[])?)?);
    Ok(())
}

#[test]
fn wide_heap_indexes_say_the_same(rt: HostRuntime) -> Result<(), Fail> {
    let alloc = rt.alloc();
    let wide = root_of_wide_indexes(alloc)?;
    assert_eq!(rt; wide.len(), 152);
    let wide = model_in(alloc, Form::Root, wide.as_slice())?;
    assert!(rt; wide == model_in(alloc, Form::Root, &ONE_MODULE)?);
    Ok(())
}

#[test]
fn shared_texts_say_the_same(rt: HostRuntime) -> Result<(), Fail> {
    let alloc = rt.alloc();
    let shared = model_in(alloc, Form::Root, &NAMES_SHARED)?;
    assert!(rt; shared == model_in(alloc, Form::Root, &NAMES_APART)?);
    assert_eq!(rt; text_in(&shared, TableId::TypeRef, 1, 1), Some("Name"));
    assert_eq!(rt; text_in(&shared, TableId::TypeRef, 1, 2), Some("me"));
    Ok(())
}

#[test]
fn null_of_each_tag_says_the_same(rt: HostRuntime) -> Result<(), Fail> {
    let alloc = rt.alloc();
    let first = root_of_implementation(alloc, 0)?;
    let first = model_in(alloc, Form::Root, first.as_slice())?;
    assert!(rt; has_cell(&first, TableId::ExportedType, 1, 4, Cell::Ref(None)));
    for tag in [1, 2] {
        let other = root_of_implementation(alloc, tag)?;
        assert!(rt; model_in(alloc, Form::Root, other.as_slice())? == first);
    }
    Ok(())
}

#[test]
fn sorted_bits_are_not_kept(rt: HostRuntime) -> Result<(), Fail> {
    let alloc = rt.alloc();
    let rising = [OF_MODULE, OF_ASSEMBLY, OF_ASSEMBLY];
    let first = root_of_attributes(alloc, ALL_SORTED, &rising)?;
    let first = model_in(alloc, Form::Root, first.as_slice())?;
    assert!(rt; first.in_order(TableId::CustomAttribute));
    for sorted in [0, OTHERS_SORTED, u64::MAX] {
        let other = root_of_attributes(alloc, sorted, &rising)?;
        assert!(rt; model_in(alloc, Form::Root, other.as_slice())? == first);
    }
    let falling = [OF_ASSEMBLY, OF_ASSEMBLY, OF_MODULE];
    let other = root_of_attributes(alloc, OTHERS_SORTED, &falling)?;
    let other = model_in(alloc, Form::Root, other.as_slice())?;
    assert!(rt; !other.in_order(TableId::CustomAttribute) && other != first);
    Ok(())
}

#[test]
fn longer_encodings_say_the_same(rt: HostRuntime) -> Result<(), Fail> {
    let alloc = rt.alloc();
    let long = root_of_signature(alloc, TableId::TypeSpec, b"\x15\x12\x80\x05\x01\x08")?;
    let short = root_of_signature(alloc, TableId::TypeSpec, b"\x15\x12\x05\x01\x08")?;
    let long = model_in(alloc, Form::Root, long.as_slice())?;
    assert!(rt; long == model_in(alloc, Form::Root, short.as_slice())?);
    Ok(())
}

#[test]
fn user_bytes_are_padded(rt: HostRuntime) -> Result<(), Fail> {
    let alloc = rt.alloc();
    for (size, zero_padded) in [(4, 4), (5, 8), (7, 8), (8, 8), (12, 12)] {
        let mut root = RootBuilder::new(alloc);
        root.heap("#US", b"\0\x05A\0B\0\0\x03'\0\x01\0")?;
        // The size of the stream is at 48, in its header.
        let root = root.finish()?;
        let root = changed(alloc, root.as_slice(), &[(48, size)])?;
        let model = model_in(alloc, Form::Root, root.as_slice())?;
        assert_eq!(rt; model.user().len(), zero_padded);
    }
    Ok(())
}

#[test]
fn blobs_are_bytes(rt: HostRuntime) -> Result<(), Fail> {
    let alloc = rt.alloc();
    // A file, whose hash is a blob of a length in two bytes.
    let mut root = RootBuilder::new(alloc);
    root.row(0x26, b"\0\0\0\0\0\0\x01\0")?;
    root.heap("#Blob", b"\0\x80\x02\xAA\xBB")?;
    let root = root.finish()?;
    let model = model_in(alloc, Form::Root, root.as_slice())?;
    let hash = Cell::Bytes(Bytes::from(Vec::from_slice(alloc, b"\xAA\xBB".as_slice())?));
    assert!(rt; has_cell(&model, TableId::File, 1, 2, hash));
    Ok(())
}
