use crate::form::Form;
use crate::reports::{fault_in, model_in};
use sample_roots::{
    FILE_PREFIXES, PrefixFault, MODULE_PREFIXES, ONE_MODULE, TWO_TYPE_PREFIXES, TWO_TYPES, fault_of, image,
};
use std::alloc::Global;
use std::test::Fail;

/// The length of the first prefix that is not refused as it is listed, or is refused and not listed.
fn first_other_prefix(
    alloc: Global,
    form: Form,
    bytes: &[u8],
    prefixes: &[PrefixFault],
) -> Result<Option<usize>, Fail> {
    for len in 0..=bytes.len() {
        let listed = prefixes.iter().find(|(longest, _, _)| len <= *longest);
        let found = fault_in(alloc, form, &bytes[..len])?;
        if fault_of(found) != listed.map(|(_, code, offset)| (*code, *offset)) {
            return Ok(Some(len));
        }
    }
    Ok(None)
}

#[test]
fn each_prefix_of_a_root_is_refused(rt: HostRuntime) -> Result<(), Fail> {
    let alloc = rt.alloc();
    assert_eq!(rt;
        first_other_prefix(alloc, Form::Root, &ONE_MODULE, &MODULE_PREFIXES)?,
        None
    );
    assert_eq!(rt;
        first_other_prefix(alloc, Form::Root, &TWO_TYPES, &TWO_TYPE_PREFIXES)?,
        None
    );
    Ok(())
}

#[test]
fn each_prefix_of_a_file_is_refused_up_to_the_end_of_its_root(rt: HostRuntime) -> Result<(), Fail> {
    let alloc = rt.alloc();
    let file = image();
    assert_eq!(rt;
        first_other_prefix(alloc, Form::Image, &file, &FILE_PREFIXES)?,
        None
    );
    let module = model_in(alloc, Form::Root, &ONE_MODULE)?;
    for len in [736, 737, 1023, 1024] {
        assert!(rt;
            model_in(alloc, Form::Image, &file[..len])? == module,
            "{len}"
        );
    }
    Ok(())
}
