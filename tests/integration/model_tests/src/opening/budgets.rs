use crate::opening::built_roots::{one_module, two_types};
use opening::{BoundedError, Fault, FaultCode, open_root_within};
use sample_roots::RootBuilder;
use std::alloc::Global;
use std::test::Fail;

/// A root of two fields, of which the second has a byte after its signature: their blobs have two and
/// three bytes. The rows of Field are at 106 and 112.
fn with_extra_byte(alloc: Global) -> Result<Vec<u8>, Fail> {
    let mut root = RootBuilder::new(alloc);
    root.row(0x02, b"\0\0\0\0\0\0\0\0\0\0\x01\0\x01\0")?;
    root.row(0x04, b"\0\0\0\0\x01\0")?;
    root.row(0x04, b"\0\0\0\0\x04\0")?;
    root.heap("#Blob", b"\0\x02\x06\x08\x03\x06\x08\0")?;
    Ok(root.finish()?)
}

/// Its two fields share a blob of two bytes, which is walked once; that of the method has three.
#[test]
fn a_blob_counts_when_it_is_walked(rt: HostRuntime) -> Result<(), Fail> {
    let root = two_types(rt.alloc())?;
    for (budget, error) in [
        (0, Some(BoundedError::BudgetSpent)),
        (4, Some(BoundedError::BudgetSpent)),
        (5, None),
        (7, None),
        (u64::MAX, None),
    ] {
        let opened = open_root_within(root.as_slice(), budget);
        assert_eq!(rt; opened.err(), error, "within {budget}");
    }
    Ok(())
}

#[test]
fn a_root_without_signatures_needs_no_budget(rt: HostRuntime) -> Result<(), Fail> {
    let root = one_module(rt.alloc())?;
    let view = open_root_within(root.as_slice(), 0)?;
    assert_eq!(rt; view.version(), "v4.0.30319");
    Ok(())
}

/// The walk that finds the fault in its row is not counted.
#[test]
fn a_fault_is_reported_where_the_budget_reaches_it(rt: HostRuntime) -> Result<(), Fail> {
    let root = with_extra_byte(rt.alloc())?;
    let fault = Fault::new(FaultCode::BadSignature, 116);
    for (budget, error) in [
        (0, BoundedError::BudgetSpent),
        (4, BoundedError::BudgetSpent),
        (5, BoundedError::Fault(fault)),
    ] {
        let opened = open_root_within(root.as_slice(), budget);
        assert_eq!(rt; opened.err(), Some(error), "within {budget}");
    }
    Ok(())
}

/// What does not depend on signatures is reported whatever the budget is.
#[test]
fn other_faults_need_no_budget(rt: HostRuntime) -> Result<(), Fail> {
    let mut root = RootBuilder::new(rt.alloc());
    root.row(0x0A, b"\0\0\0\0\x01\0")?;
    root.heap("#Blob", b"\0\x02\x06\x08")?;
    let root = root.finish()?;
    let fault = Fault::new(FaultCode::BadIndex, 88);
    let opened = open_root_within(root.as_slice(), 0);
    assert_eq!(rt; opened.err(), Some(BoundedError::Fault(fault)));
    Ok(())
}

/// Rows of ModuleRef that name these texts. `#Strings` has 10,240 bytes, so that a 1024th of it has 11; its second byte
/// is given.
fn with_names(alloc: Global, second: u8, names: &[u16]) -> Result<Vec<u8>, Fail> {
    let mut root = RootBuilder::new(alloc);
    for name in names {
        root.row(0x1A, name.to_le_bytes().as_slice())?;
    }
    root.heap("#Strings", texts(alloc, second)?.as_slice())?;
    Ok(root.finish()?)
}

/// A heap with a text of 5 bytes at 22, and one of 30 at 33.
fn texts(alloc: Global, second: u8) -> Result<Vec<u8>, Fail> {
    let mut heap = Vec::new(alloc);
    for offset in 0..10_240u32 {
        heap.push(match offset {
            1 => second,
            22..=26 => b'b',
            33..=62 => b'c',
            _ => 0,
        })?;
    }
    Ok(heap)
}

/// A text counts up to the end of its 1024th of the heap, in each row. If the heap is UTF-8, it counts nothing.
#[test]
fn a_text_counts_in_a_heap_that_is_not_utf8(rt: HostRuntime) -> Result<(), Fail> {
    for (second, budget, error) in [
        (0xFF, 0, Some(BoundedError::BudgetSpent)),
        (0xFF, 30, Some(BoundedError::BudgetSpent)),
        (0xFF, 31, None),
        (b'a', 0, None),
    ] {
        let root = with_names(rt.alloc(), second, [22, 33, 40, 33, 0].as_slice())?;
        let opened = open_root_within(root.as_slice(), budget);
        assert_eq!(rt; opened.err(), error, "{second} within {budget}");
    }
    Ok(())
}

/// The texts of the rows before the first fault count. That row is free, and so are the rows after it.
#[test]
fn texts_before_a_fault_count(rt: HostRuntime) -> Result<(), Fail> {
    let fault = Fault::new(FaultCode::BadUtf8, 94);
    let root = with_names(rt.alloc(), 0xFF, [22, 1, 33].as_slice())?;
    for (budget, error) in [
        (4, BoundedError::BudgetSpent),
        (5, BoundedError::Fault(fault)),
    ] {
        let opened = open_root_within(root.as_slice(), budget);
        assert_eq!(rt; opened.err(), Some(error), "within {budget}");
    }
    Ok(())
}

/// Two fields have a name that counts 11 bytes, and share a blob of two bytes.
#[test]
fn texts_and_signatures_share_a_budget(rt: HostRuntime) -> Result<(), Fail> {
    let mut root = RootBuilder::new(rt.alloc());
    root.row(0x02, b"\0\0\0\0\0\0\0\0\0\0\x01\0\x01\0")?;
    for _ in 0..2 {
        root.row(0x04, b"\0\0\x21\0\x01\0")?;
    }
    root.heap("#Strings", texts(rt.alloc(), 0xFF)?.as_slice())?;
    root.heap("#Blob", b"\0\x02\x06\x08")?;
    let root = root.finish()?;
    for (budget, error) in [(23, Some(BoundedError::BudgetSpent)), (24, None)] {
        let opened = open_root_within(root.as_slice(), budget);
        assert_eq!(rt; opened.err(), error, "within {budget}");
    }
    Ok(())
}

#[test]
fn errors_are_reported(rt: HostRuntime) -> Result<(), Fail> {
    let fault = Fault::new(FaultCode::BadSignature, 12);
    for (error, reported) in [
        (
            BoundedError::Fault(fault),
            "fault 7 701 at 12: BadSignature",
        ),
        (BoundedError::BudgetSpent, "budget spent"),
    ] {
        assert_eq!(rt; error.to_string(rt.alloc())?.as_str(), reported);
    }
    Ok(())
}
