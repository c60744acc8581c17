use owned_model::{LoadError, Model, load_root};
use sample_roots::{NO_ROWS, ONE_MODULE, TWO_TYPES, changed};
use sample_tables::{
    GUID, model_of, model_of_module, model_of_no_rows, model_of_two_types, root_of_whole_tables,
    tables_with,
};
use std::alloc::Global;
use std::process::Abort;
use std::test::Fail;
use writer::{WriteError, prepare, write_root, write_root_within};

/// That a model is written as this root, which loads to an equal one.
fn check(rt: &impl Abort, alloc: Global, model: &Model, root: &[u8]) -> Result<(), Fail> {
    let written = write_root(alloc, model)?;
    assert_eq!(rt; written.as_slice(), root);
    let loaded = load_root(alloc, written.as_slice())?;
    assert!(rt; loaded == *model);
    let prepared = prepare(alloc, model, root.len().min(0xFFFF) as u32)?;
    assert_eq!(rt; prepared.len() as usize, root.len());
    assert_eq!(rt; prepared.bytes(), root);
    assert_eq!(rt; prepared.into_bytes().as_slice(), root);
    Ok(())
}

#[test]
fn made_models_are_written_as_the_samples(rt: HostRuntime) -> Result<(), Fail> {
    let alloc = rt.alloc();
    check(&rt, alloc, &model_of_no_rows(alloc)?, &NO_ROWS)?;
    let module = model_of_module(alloc, "a.dll", Some(GUID))?;
    check(&rt, alloc, &module, &ONE_MODULE)?;
    check(&rt, alloc, &model_of_two_types(alloc)?, &TWO_TYPES)
}

#[test]
fn three_rows_of_each_table_are_written_as_their_root(rt: HostRuntime) -> Result<(), Fail> {
    let alloc = rt.alloc();
    let model = model_of(tables_with(alloc, &[])?)?;
    let root = root_of_whole_tables(alloc)?;
    check(&rt, alloc, &model, root.as_slice())
}

#[test]
fn a_root_is_refused_above_its_limit_alone(rt: HostRuntime) -> Result<(), Fail> {
    let alloc = rt.alloc();
    let model = model_of_module(alloc, "a.dll", Some(GUID))?;
    let too_large = Some(WriteError::TooLarge);
    for limit in [0, 1, 143] {
        assert_eq!(rt; prepare(alloc, &model, limit).err(), too_large);
        assert_eq!(rt; write_root_within(alloc, &model, limit).err(), too_large);
    }
    for limit in [144, 145, 1 << 30] {
        assert_eq!(rt; prepare(alloc, &model, limit)?.len(), 144);
        let root = write_root_within(alloc, &model, limit)?;
        assert_eq!(rt; root.as_slice(), ONE_MODULE.as_slice());
    }
    Ok(())
}

/// The fault of a root whose byte at an offset is 2.
fn fault_with(alloc: Global, root: &[u8], offset: usize) -> Result<(u16, u64), Fail> {
    let other = changed(alloc, root, &[(offset, 2)])?;
    match load_root(alloc, other.as_slice()) {
        Err(LoadError::Fault(fault)) => Ok((fault.code, fault.offset)),
        _ => Err(Fail::from("no fault")),
    }
}

/// The root of one row of Module, whose name has this number of letters.
fn named_by(alloc: Global, letters: usize) -> Result<Vec<u8>, Fail> {
    let mut name = String::new(alloc);
    for _ in 0..letters {
        name.push('x')?;
    }
    Ok(write_root(alloc, &model_of_module(alloc, name.as_str(), None)?)?)
}

#[test]
fn indexes_are_narrow_below_65536_bytes(rt: HostRuntime) -> Result<(), Fail> {
    let narrow = named_by(rt.alloc(), 65530)?;
    assert_eq!(rt; narrow.len(), 65636);
    assert_eq!(rt;
        narrow.as_slice().get(32..64),
        Some(b"\x40\0\0\0\x28\0\0\0#~\0\0\x68\0\0\0\xFC\xFF\0\0#Strings\0\0\0\0".as_slice())
    );
    assert_eq!(rt; narrow.as_slice().get(70), Some(&0));
    assert_eq!(rt;
        narrow.as_slice().get(92..106),
        Some(b"\0\0\x01\0\0\0\0\0\0\0\0\0\0x".as_slice())
    );
    // The GUID of the module is at 96: there is no second one.
    assert_eq!(rt; fault_with(rt.alloc(), narrow.as_slice(), 96)?, (504, 96));
    Ok(())
}

#[test]
fn indexes_are_wide_from_65536_bytes_on(rt: HostRuntime) -> Result<(), Fail> {
    let wide = named_by(rt.alloc(), 65531)?;
    assert_eq!(rt; wide.len(), 65640);
    assert_eq!(rt;
        wide.as_slice().get(32..64),
        Some(b"\x40\0\0\0\x28\0\0\0#~\0\0\x68\0\0\0\0\0\x01\0#Strings\0\0\0\0".as_slice())
    );
    assert_eq!(rt; wide.as_slice().get(70), Some(&1));
    assert_eq!(rt;
        wide.as_slice().get(92..106),
        Some(b"\0\0\x01\0\0\0\0\0\0\0\0\0\0x".as_slice())
    );
    // The GUID of the module is at 98.
    assert_eq!(rt; fault_with(rt.alloc(), wide.as_slice(), 98)?, (504, 98));
    Ok(())
}
