use crate::model::both::Both;
use crate::shown::Members;
use sample_roots::{RootBuilder, TWO_TYPES, root_of_params, root_of_starts, type_row};
use std::test::Fail;

#[test]
fn runs_of_two_types(rt: HostRuntime) -> Result<(), Fail> {
    let both = Both::of(rt.alloc(), &TWO_TYPES)?;
    for (members, row, run) in [
        (Members::Fields, 1, Some(1..1)),
        (Members::Fields, 2, Some(1..3)),
        (Members::Fields, 0, None),
        (Members::Methods, 1, Some(1..1)),
        (Members::Methods, 2, Some(1..2)),
        (Members::Methods, 3, None),
        (Members::Params, 1, Some(1..1)),
        (Members::Params, 2, None),
        (Members::Events, 1, None),
        (Members::Properties, 1, None),
    ] {
        let (in_place, owned) = both.runs(members, row);
        assert_eq!(rt; in_place, run, "of {row} in place");
        assert_eq!(rt; owned, run, "of {row}");
    }
    Ok(())
}

#[test]
fn a_null_start_is_that_of_the_next_owner(rt: HostRuntime) -> Result<(), Fail> {
    let root = root_of_starts(rt.alloc(), [1, 0, 3])?;
    let both = Both::of(rt.alloc(), root.as_slice())?;
    for (members, row, run) in [
        (Members::Fields, 1, Some(1..3)),
        (Members::Fields, 2, Some(3..3)),
        (Members::Fields, 3, Some(3..3)),
        (Members::Fields, 4, None),
        (Members::Methods, 1, Some(1..1)),
        (Members::Methods, 2, Some(1..1)),
        (Members::Methods, 3, Some(1..1)),
    ] {
        let (in_place, owned) = both.runs(members, row);
        assert_eq!(rt; in_place, run, "of {row} in place");
        assert_eq!(rt; owned, run, "of {row}");
    }
    Ok(())
}

#[test]
fn a_run_starts_after_65535_members(rt: HostRuntime) -> Result<(), Fail> {
    let root = root_of_params(rt.alloc())?;
    let both = Both::of(rt.alloc(), root.as_slice())?;
    for (row, params) in [(1, Some(1..65536)), (2, Some(65536..65536))] {
        let (in_place, owned) = both.runs(Members::Params, row);
        assert_eq!(rt; in_place, params, "of {row} in place");
        assert_eq!(rt; owned, params, "of {row}");
    }
    Ok(())
}

#[test]
fn maps_own_events_and_properties(rt: HostRuntime) -> Result<(), Fail> {
    let mut root = RootBuilder::new(rt.alloc());
    root.row(0x02, &type_row(1, 1))?;
    root.row(0x12, b"\x01\0\x01\0")?;
    root.row(0x12, b"\x01\0\x03\0")?;
    for _ in 0..2 {
        root.row(0x14, b"\0\0\0\0\0\0")?;
    }
    root.row(0x15, b"\x01\0\x01\0")?;
    for _ in 0..3 {
        root.row(0x17, b"\0\0\0\0\x01\0")?;
    }
    root.heap("#Blob", b"\0\x03\x08\0\x08")?;
    let root = root.finish()?;
    let both = Both::of(rt.alloc(), root.as_slice())?;
    for (members, row, run) in [
        (Members::Events, 1, Some(1..3)),
        (Members::Events, 2, Some(3..3)),
        (Members::Properties, 1, Some(1..4)),
        (Members::Properties, 2, None),
    ] {
        let (in_place, owned) = both.runs(members, row);
        assert_eq!(rt; in_place, run, "of {row} in place");
        assert_eq!(rt; owned, run, "of {row}");
    }
    Ok(())
}
