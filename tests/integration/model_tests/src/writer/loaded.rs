use owned_model::{TableId, load_root};
use sample_roots::{
    NAMES_APART, NAMES_SHARED, NO_ROWS, ONE_MODULE, THREE_TYPES, TWO_TYPES, root_of_implementation,
    root_of_params, root_of_signature, root_of_wide_indexes,
};
use std::alloc::Global;
use std::test::Fail;
use writer::write_root;

/// The canonical root of the model of a root, which has to load to an equal model.
pub fn rewritten(alloc: Global, root: &[u8]) -> Result<Vec<u8>, Fail> {
    let model = load_root(alloc, root)?;
    let written = write_root(alloc, &model)?;
    if load_root(alloc, written.as_slice())? == model {
        Ok(written)
    } else {
        Err(Fail::from("a root that loads to another model"))
    }
}

#[test]
fn canonical_roots_are_kept(rt: HostRuntime) -> Result<(), Fail> {
    let alloc = rt.alloc();
    for root in [
        ONE_MODULE.as_slice(),
        &TWO_TYPES,
        &THREE_TYPES,
        &NAMES_SHARED,
        &NO_ROWS,
    ] {
        assert_eq!(rt; rewritten(alloc, root)?.as_slice(), root);
    }
    Ok(())
}

#[test]
fn indexes_of_four_bytes_are_not_kept(rt: HostRuntime) -> Result<(), Fail> {
    let alloc = rt.alloc();
    let root = root_of_wide_indexes(alloc)?;
    assert_eq!(rt; root.len(), 152);
    let loaded = load_root(alloc, root.as_slice())?;
    assert!(rt; loaded == load_root(alloc, &ONE_MODULE)?);
    let written = rewritten(alloc, root.as_slice())?;
    assert_eq!(rt; written.as_slice(), ONE_MODULE.as_slice());
    Ok(())
}

#[test]
fn a_text_that_another_ends_with_stands_in_it(rt: HostRuntime) -> Result<(), Fail> {
    let alloc = rt.alloc();
    assert!(rt; load_root(alloc, &NAMES_SHARED)? == load_root(alloc, &NAMES_APART)?);
    for root in [NAMES_SHARED.as_slice(), &NAMES_APART] {
        let written = rewritten(alloc, root)?;
        assert_eq!(rt; written.as_slice(), NAMES_SHARED.as_slice());
        assert_eq!(rt;
            written.as_slice().get(92..98),
            Some(b"\0\0\x01\0\x03\0".as_slice())
        );
        assert_eq!(rt;
            written.as_slice().get(100..),
            Some(b"\0Name\0\0\0".as_slice())
        );
    }
    Ok(())
}

#[test]
fn the_start_after_65535_members_is_null(rt: HostRuntime) -> Result<(), Fail> {
    let alloc = rt.alloc();
    let root = root_of_params(alloc)?;
    let model = load_root(alloc, root.as_slice())?;
    assert_eq!(rt; model.count(TableId::Param), 65535);
    let written = write_root(alloc, &model)?;
    assert!(rt; written.as_slice() == root.as_slice());
    // The table stream begins at 60, the methods at 110.
    assert_eq!(rt;
        written.as_slice().get(122..124),
        Some(b"\x01\0".as_slice())
    );
    assert_eq!(rt; written.as_slice().get(136..138), Some(b"\0\0".as_slice()));
    Ok(())
}

#[test]
fn null_is_written_as_0(rt: HostRuntime) -> Result<(), Fail> {
    let alloc = rt.alloc();
    let null = root_of_implementation(alloc, 0)?;
    for tag in [0, 1, 2] {
        let root = root_of_implementation(alloc, tag)?;
        let written = rewritten(alloc, root.as_slice())?;
        assert_eq!(rt; written.as_slice(), null.as_slice());
    }
    Ok(())
}

#[test]
fn signatures_take_their_shortest_form(rt: HostRuntime) -> Result<(), Fail> {
    let alloc = rt.alloc();
    let long = root_of_signature(alloc, TableId::TypeSpec, b"\x15\x12\x80\x05\x01\x08")?;
    let short = root_of_signature(alloc, TableId::TypeSpec, b"\x15\x12\x05\x01\x08")?;
    let written = rewritten(alloc, long.as_slice())?;
    assert_eq!(rt;
        written.as_slice(),
        rewritten(alloc, short.as_slice())?.as_slice()
    );
    Ok(())
}
