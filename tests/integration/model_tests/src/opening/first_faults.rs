use crate::reports::{fault_in, fault_of_image, fault_of_root};
use crate::form::Form;
use opening::Fault;
use sample_roots::{
    FILE_FAULTS, FirstFault, MODULE_FAULTS, NESTED_TYPE_FAULTS, ONE_MODULE, THREE_TYPES,
    TWO_TYPE_FAULTS, TWO_TYPES, changed, image,
};
use std::alloc::Global;
use std::test::Fail;

/// Whether a fault is the one that is listed.
fn is_listed(found: Option<Fault>, listed: &FirstFault) -> bool {
    let (_, code, offset, name) = listed;
    match found {
        Some(fault) => {
            (fault.code, fault.offset) == (*code, *offset)
                && fault.name() == *name
                && u16::from(fault.layer) == *code / 100
        }
        None => false,
    }
}

/// The first of the changed samples that is not refused as it is listed.
fn first_other_fault(
    alloc: Global,
    form: Form,
    sample: &[u8],
    faults: &[FirstFault],
) -> Result<Option<FirstFault>, Fail> {
    for listed in faults {
        let bytes = changed(alloc, sample, listed.0)?;
        if !is_listed(fault_in(alloc, form, bytes.as_slice())?, listed) {
            return Ok(Some(*listed));
        }
    }
    Ok(None)
}

#[test]
fn each_rule_on_a_file_is_the_first_to_fail(rt: HostRuntime) -> Result<(), Fail> {
    assert_eq!(rt;
        first_other_fault(rt.alloc(), Form::Image, &image(), &FILE_FAULTS)?,
        None
    );
    Ok(())
}

#[test]
fn each_rule_on_a_root_is_the_first_to_fail(rt: HostRuntime) -> Result<(), Fail> {
    let alloc = rt.alloc();
    let one_module = first_other_fault(alloc, Form::Root, &ONE_MODULE, &MODULE_FAULTS)?;
    assert_eq!(rt; one_module, None);
    let two_types = first_other_fault(alloc, Form::Root, &TWO_TYPES, &TWO_TYPE_FAULTS)?;
    assert_eq!(rt; two_types, None);
    let three_types = first_other_fault(alloc, Form::Root, &THREE_TYPES, &NESTED_TYPE_FAULTS)?;
    assert_eq!(rt; three_types, None);
    Ok(())
}

#[test]
fn a_count_is_reported_before_the_tables_that_it_cuts(rt: HostRuntime) -> Result<(), Fail> {
    let both = changed(
        rt.alloc(),
        &TWO_TYPES,
        &[(104, 0xFF), (108, 0xFF), (111, 1)],
    )?;
    assert_eq!(rt; fault_of_root(rt.alloc(), both.as_slice())?, Some((406, 108)));
    Ok(())
}

#[test]
fn no_bytes_are_neither_a_root_nor_a_file(rt: HostRuntime) -> Result<(), Fail> {
    let alloc = rt.alloc();
    assert_eq!(rt; fault_of_root(alloc, b"".as_slice())?, Some((301, 0)));
    for file in [b"".as_slice(), b"M", b"MZ"] {
        assert_eq!(rt; fault_of_image(alloc, file)?, Some((102, 0)));
    }
    Ok(())
}
