use crate::model::both::Both;
use sample_roots::{NO_ROWS, RootBuilder, TWO_TYPES};
use std::test::Fail;

#[test]
fn finds_types_by_both_names(rt: HostRuntime) -> Result<(), Fail> {
    let both = Both::of(rt.alloc(), &TWO_TYPES)?;
    for (namespace, name, row) in [
        ("N", "C", Some(2)),
        ("", "C", None),
        ("", "<Module>", Some(1)),
        ("N", "", None),
        ("N", "<Module>", None),
        ("", "<Module", None),
        ("", "<Module>\0", None),
        ("N", "C\0", None),
        ("C", "N", None),
        ("", "", None),
    ] {
        assert_eq!(rt;
            both.types(namespace, name),
            [row, row],
            "of {namespace}.{name}"
        );
    }
    let both = Both::of(rt.alloc(), &NO_ROWS)?;
    assert_eq!(rt; both.types("", ""), [None, None]);
    Ok(())
}

#[test]
fn finds_the_first_of_types_of_one_name(rt: HostRuntime) -> Result<(), Fail> {
    // The heap holds `me` twice, once as the end of `Name`.
    let mut root = RootBuilder::new(rt.alloc());
    root.row(0x02, b"\0\0\0\0\0\0\0\0\0\0\x01\0\x01\0")?;
    root.row(0x02, b"\0\0\0\0\x06\0\x01\0\0\0\x01\0\x01\0")?;
    root.row(0x02, b"\0\0\0\0\x03\0\x01\0\0\0\x01\0\x01\0")?;
    root.heap("#Strings", b"\0Name\0me\0")?;
    let root = root.finish()?;
    let both = Both::of(rt.alloc(), root.as_slice())?;
    assert_eq!(rt; both.types("Name", "me"), [Some(2), Some(2)]);
    assert_eq!(rt; both.types("", ""), [Some(1), Some(1)]);
    assert_eq!(rt; both.types("me", "me"), [None, None]);
    Ok(())
}
