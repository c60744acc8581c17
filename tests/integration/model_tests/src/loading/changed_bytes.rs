use crate::form::Form;
use crate::reports::{fault_in, model_in};
use sample_roots::{
    NAMES_APART, NAMES_SHARED, NO_ROWS, ONE_MODULE, THREE_TYPES, TWO_TYPES, change, changed, image,
};
use std::alloc::Global;
use std::ops::Range;
use std::test::Fail;

/// Loads and opens bytes of which one is set to 0 and to 0xFF, at each of these offsets. Both have to give the
/// same result. Returns how many have a model and how many a fault.
fn count_answers(
    alloc: Global,
    form: Form,
    bytes: &[u8],
    offsets: Range<usize>,
) -> Result<(u32, u32), Fail> {
    let mut models = 0u32;
    let mut faults = 0u32;
    for offset in offsets {
        for byte in [0, 0xFF] {
            let other = changed(alloc, bytes, &[(offset, byte)])?;
            match fault_in(alloc, form, other.as_slice())? {
                None => models += 1,
                Some(_) => faults += 1,
            }
        }
    }
    Ok((models, faults))
}

/// Whether the changes of a root give models and faults.
fn has_both(alloc: Global, root: &[u8]) -> Result<bool, Fail> {
    let (models, faults) = count_answers(alloc, Form::Root, root, 0..root.len())?;
    Ok(0 < models && 0 < faults)
}

#[test]
fn changed_bytes_of_a_module_are_loaded_as_they_are_opened(rt: HostRuntime) -> Result<(), Fail> {
    assert!(rt; has_both(rt.alloc(), &ONE_MODULE)?);
    assert!(rt; has_both(rt.alloc(), &NO_ROWS)?);
    Ok(())
}

#[test]
fn changed_bytes_of_names_are_loaded_as_they_are_opened(rt: HostRuntime) -> Result<(), Fail> {
    assert!(rt; has_both(rt.alloc(), &NAMES_SHARED)?);
    assert!(rt; has_both(rt.alloc(), &NAMES_APART)?);
    Ok(())
}

#[test]
fn changed_bytes_of_two_types_are_loaded_as_they_are_opened(rt: HostRuntime) -> Result<(), Fail> {
    assert!(rt; has_both(rt.alloc(), &TWO_TYPES)?);
    Ok(())
}

#[test]
fn changed_bytes_of_nested_types_are_loaded_as_they_are_opened(
    rt: HostRuntime,
) -> Result<(), Fail> {
    assert!(rt; has_both(rt.alloc(), &THREE_TYPES)?);
    Ok(())
}

#[test]
fn changed_heads_of_a_file_are_loaded_as_they_are_opened(rt: HostRuntime) -> Result<(), Fail> {
    let file = image();
    // The PE headers and the section header, and the CLI header.
    for offsets in [0..0x1A0, 0x200..0x250] {
        let (models, faults) = count_answers(rt.alloc(), Form::Image, &file, offsets)?;
        assert!(rt; 0 < models && 0 < faults);
    }
    Ok(())
}

#[test]
fn changed_bytes_of_a_root_in_a_file_are_loaded_as_they_are_opened(
    rt: HostRuntime,
) -> Result<(), Fail> {
    let (models, faults) = count_answers(rt.alloc(), Form::Image, &image(), 592..736)?;
    assert!(rt; 0 < models && 0 < faults);
    Ok(())
}

#[test]
fn bytes_that_nothing_names_are_not_read(rt: HostRuntime) -> Result<(), Fail> {
    let alloc = rt.alloc();
    let mut file = image();
    for offset in (0x1A0..0x200).chain(736..1024) {
        change(&mut file, &[(offset, 0xFF)]);
    }
    let module = model_in(alloc, Form::Root, &ONE_MODULE)?;
    assert!(rt; model_in(alloc, Form::Image, &file)? == module);
    Ok(())
}
