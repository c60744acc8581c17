//! Tests of the errors of the public API: `?` passes each of them on in a function of `anyhow::Result`, and its text
//! says which rule is broken, and where.

use anyhow::Result;
use model::{
    BoundedError, Fault, FaultCode, HeapFault, LoadError, PoolError, Refusal, SigError, TextError,
    WriteError,
};
use writer::{PlanError, Stopped};
use std::alloc::Global;
use std::error::Error;
use std::process::Abort;
use std::test::Fail;

/// Passes an error on, as a program does.
fn passes_on<E: Error>(error: E) -> Result<()> {
    Err::<(), E>(error)?;
    Ok(())
}

/// Checks the text of an error that was passed on.
fn check<E: Error>(rt: &impl Abort, alloc: Global, error: E, wanted: &str) -> Result<(), Fail> {
    let Err(error) = passes_on(error) else {
        return Err("no error".into());
    };
    let text = format!(in alloc; "{error}")?;
    assert_eq!(rt; text.as_str(), wanted);
    Ok(())
}

#[test]
fn faults_name_the_rule_and_the_offset(rt: HostRuntime) -> Result<(), Fail> {
    let fault = Fault::new(FaultCode::BadString, 110);
    check(&rt, rt.alloc(), fault, "fault 5 501 at 110: BadString")?;
    check(&rt, rt.alloc(), BoundedError::Fault(fault), "fault 5 501 at 110: BadString")?;
    check(&rt, rt.alloc(), BoundedError::BudgetSpent, "budget spent")?;
    check(&rt, rt.alloc(), LoadError::Fault(fault), "fault 5 501 at 110: BadString")?;
    check(&rt, rt.alloc(), LoadError::Memory, "out of memory")
}

#[test]
fn refusals_name_the_rule_and_the_cell(rt: HostRuntime) -> Result<(), Fail> {
    let refusal = Refusal::new(FaultCode::BadIndex, 2, 5, 3);
    check(&rt, rt.alloc(), refusal, "rule 506 is broken at table 2, row 5, column 3")
}

#[test]
fn faults_of_heaps_name_the_rule_and_the_heap(rt: HostRuntime) -> Result<(), Fail> {
    for (fault, text) in [
        (
            HeapFault::BadString,
            "BadString: no NUL at the index or after it in #Strings (rule 501)",
        ),
        (
            HeapFault::BadUtf8,
            "BadUtf8: the text at the index into #Strings is not UTF-8 (rule 502)",
        ),
        (
            HeapFault::BadBlob,
            "BadBlob: no blob at the index into #Blob or #US (rule 503)",
        ),
        (
            HeapFault::BadGuid,
            "BadGuid: #GUID has no entry with this number (rule 504)",
        ),
        (
            HeapFault::BadUserString,
            "BadUserString: a user string with an even number of bytes, more than 0 (rule 508)",
        ),
    ] {
        check(&rt, rt.alloc(), fault, text)?;
    }
    Ok(())
}

#[test]
fn other_errors_have_a_text(rt: HostRuntime) -> Result<(), Fail> {
    check(&rt, rt.alloc(), PoolError::Memory, "out of memory")?;
    check(&rt, rt.alloc(), PoolError::Full, "the heap is full, or the user string is too long")?;
    check(&rt, rt.alloc(), SigError::Memory, "out of memory")?;
    check(
        &rt,
        rt.alloc(),
        SigError::Bad,
        "BadSignature: the bytes encode no signature of this kind (rule 701)",
    )?;
    check(&rt, rt.alloc(), TextError::Memory, "out of memory")?;
    check(&rt, rt.alloc(), TextError::Writer, "the writer refused a part of the text")?;
    check(&rt, rt.alloc(), PlanError::Memory, "out of memory")?;
    check(&rt, rt.alloc(), PlanError::TooLarge, "the root is longer than the limit")?;
    check(&rt, rt.alloc(), Stopped { given: 28 }, "the writer failed after 28 bytes")?;
    check(&rt, rt.alloc(), WriteError::Memory, "out of memory")?;
    check(&rt, rt.alloc(), WriteError::TooLarge, "the root is longer than the limit")?;
    check(
        &rt,
        rt.alloc(),
        WriteError::Device { given: 28 },
        "the writer failed after 28 bytes",
    )
}
