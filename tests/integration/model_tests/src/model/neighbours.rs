use crate::model::both::Both;
use model::{
    ReadCells, enclosing_type, event_map_of_event, events_of_type, method_of_param,
    properties_of_type, property_map_of_property, type_of_event, type_of_field, type_of_method,
    type_of_property,
};
use sample_roots::{RootBuilder, root_of_params, root_of_starts, type_row};
use std::test::Fail;

/// The owners of fields 1 and 2.
fn owners_of_fields<S: ReadCells>(source: &S) -> (u32, u32) {
    (type_of_field(source, 1), type_of_field(source, 2))
}

#[test]
fn a_field_belongs_to_the_type_whose_run_has_it(rt: HostRuntime) -> Result<(), Fail> {
    for (starts, owners) in [
        ([1, 2, 3], (1, 2)),
        ([1, 1, 2], (2, 3)),
        ([1, 1, 1], (3, 3)),
        ([1, 3, 3], (1, 1)),
        ([1, 0, 3], (1, 1)),
        ([1, 0, 2], (1, 3)),
    ] {
        let root = root_of_starts(rt.alloc(), starts)?;
        let both = Both::of(rt.alloc(), root.as_slice())?;
        assert_eq!(rt; owners_of_fields(&both.view), owners, "in place");
        assert_eq!(rt; owners_of_fields(&both.model), owners);
    }
    Ok(())
}

#[test]
fn a_parameter_belongs_to_a_method_of_a_type(rt: HostRuntime) -> Result<(), Fail> {
    let root = root_of_params(rt.alloc())?;
    let both = Both::of(rt.alloc(), root.as_slice())?;
    for row in [1, 2, 65535] {
        assert_eq!(rt; method_of_param(&both.view, row), 1, "of {row} in place");
        assert_eq!(rt; method_of_param(&both.model, row), 1, "of {row}");
    }
    for row in [1, 2] {
        assert_eq!(rt; type_of_method(&both.view, row), 1, "of {row} in place");
        assert_eq!(rt; type_of_method(&both.model, row), 1, "of {row}");
    }
    Ok(())
}

/// A root of two types. EventMap has a row of type 2, and two of type 1; PropertyMap has one of type 2.
fn root_of_maps(rt: &HostRuntime) -> Result<Vec<u8>, Fail> {
    let mut root = RootBuilder::new(rt.alloc());
    root.row(0x02, &type_row(1, 1))?;
    root.row(0x02, &type_row(1, 1))?;
    root.row(0x12, b"\x02\0\x01\0")?;
    root.row(0x12, b"\x01\0\x02\0")?;
    root.row(0x12, b"\x01\0\x03\0")?;
    for _ in 0..3 {
        root.row(0x14, b"\0\0\0\0\0\0")?;
    }
    root.row(0x15, b"\x02\0\x01\0")?;
    for _ in 0..2 {
        root.row(0x17, b"\0\0\0\0\x01\0")?;
    }
    root.heap("#Blob", b"\0\x03\x08\0\x08")?;
    Ok(root.finish()?)
}

#[test]
fn the_first_map_of_a_type_counts(rt: HostRuntime) -> Result<(), Fail> {
    let root = root_of_maps(&rt)?;
    let both = Both::of(rt.alloc(), root.as_slice())?;
    for (row, events, properties) in [(1, 2..3, 1..1), (2, 1..2, 1..3), (3, 1..1, 1..1)] {
        assert_eq!(rt; events_of_type(&both.view, row), events, "events of {row} in place");
        assert_eq!(rt; events_of_type(&both.model, row), events, "events of {row}");
        assert_eq!(rt; properties_of_type(&both.view, row), properties, "properties of {row} in place");
        assert_eq!(rt; properties_of_type(&both.model, row), properties, "properties of {row}");
    }
    Ok(())
}

#[test]
fn events_and_properties_have_types(rt: HostRuntime) -> Result<(), Fail> {
    let root = root_of_maps(&rt)?;
    let both = Both::of(rt.alloc(), root.as_slice())?;
    for (row, map, class) in [(1, 1, 2), (2, 2, 1), (3, 3, 1)] {
        assert_eq!(rt; event_map_of_event(&both.view, row), map, "of {row} in place");
        assert_eq!(rt; event_map_of_event(&both.model, row), map, "of {row}");
        assert_eq!(rt; type_of_event(&both.view, row), class, "of {row} in place");
        assert_eq!(rt; type_of_event(&both.model, row), class, "of {row}");
    }
    for row in [1, 2] {
        assert_eq!(rt; property_map_of_property(&both.view, row), 1, "of {row} in place");
        assert_eq!(rt; type_of_property(&both.view, row), 2, "of {row} in place");
        assert_eq!(rt; type_of_property(&both.model, row), 2, "of {row}");
    }
    Ok(())
}

#[test]
fn a_nested_type_has_the_enclosing_type_of_its_first_row(rt: HostRuntime) -> Result<(), Fail> {
    for sorted in [sample_roots::ALL_SORTED, 0] {
        let mut root = RootBuilder::new(rt.alloc());
        root.sorted = sorted;
        for _ in 0..4 {
            root.row(0x02, &type_row(1, 1))?;
        }
        root.row(0x29, b"\x02\0\x01\0")?;
        root.row(0x29, b"\x04\0\x02\0")?;
        root.row(0x29, b"\x04\0\x03\0")?;
        let root = root.finish()?;
        let both = Both::of(rt.alloc(), root.as_slice())?;
        for (row, outer) in [(0, None), (1, None), (2, Some(1)), (3, None), (4, Some(2)), (5, None)] {
            assert_eq!(rt; enclosing_type(&both.view, row), outer, "of {row} in place");
            assert_eq!(rt; enclosing_type(&both.model, row), outer, "of {row}");
        }
    }
    Ok(())
}
