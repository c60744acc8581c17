use crate::scripted::{Scripted, Step};
use owned_model::Model;
use sample_roots::{ONE_MODULE, TWO_TYPES};
use sample_tables::{GUID, model_of_module, model_of_two_types};
use std::alloc::Global;
use std::process::Abort;
use std::test::Fail;
use writer::{Counted, Prepared, Sink, WriteError, prepare, write_root_to};

/// Compares the result of writing a root, the failures and what was written: all, or this number of bytes.
fn compare(
    rt: &impl Abort,
    answer: Result<(), WriteError>,
    sink: Counted<Scripted>,
    root: &[u8],
    given: Option<usize>,
) {
    let failures = sink.failures();
    let writer = sink.into_inner();
    match given {
        None => {
            assert_eq!(rt; answer, Ok(()));
            assert_eq!(rt; failures, 0);
            assert_eq!(rt; writer.bytes(), root);
        }
        Some(given) => {
            let stopped = WriteError::Device {
                given: given as u64,
            };
            assert_eq!(rt; answer, Err(stopped));
            assert_eq!(rt; failures, 1);
            assert_eq!(rt; Some(writer.bytes()), root.get(..given));
        }
    }
}

/// Sends a root that is prepared to a writer of these steps.
fn check_sent(
    rt: &impl Abort,
    alloc: Global,
    prepared: &Prepared,
    steps: &[Step],
    given: Option<usize>,
) {
    let mut sink = Counted::new(Scripted::new(alloc, steps));
    let answer = prepared.send(&mut sink);
    compare(rt, answer, sink, prepared.bytes(), given);
}

/// Writes the root of a model to a writer of these steps.
fn check_written(
    rt: &impl Abort,
    alloc: Global,
    model: &Model,
    steps: &[Step],
    root: &[u8],
    given: Option<usize>,
) {
    let mut sink = Counted::new(Scripted::new(alloc, steps));
    let answer = write_root_to(alloc, model, &mut sink);
    compare(rt, answer, sink, root, given);
}

#[test]
fn all_or_a_prefix_goes_out(rt: HostRuntime) -> Result<(), Fail> {
    let alloc = rt.alloc();
    let model = model_of_module(alloc, "a.dll", Some(GUID))?;
    let prepared = prepare(alloc, &model, 144)?;
    assert_eq!(rt; prepared.bytes(), ONE_MODULE.as_slice());
    let one_a_call = [Step::Take(1); 144];
    let rows: [(&[Step], Option<usize>); 6] = [
        (&[], None),
        (&one_a_call, None),
        (&[Step::Take(100), Step::Fail], Some(100)),
        (&[Step::Fail], Some(0)),
        (&[Step::Take(28), Step::Take(0)], Some(28)),
        (&[Step::Take(16), Step::Interrupt], Some(16)),
    ];
    for (steps, given) in rows {
        check_sent(&rt, alloc, &prepared, steps, given);
        check_written(&rt, alloc, &model, steps, &ONE_MODULE, given);
    }
    Ok(())
}

#[test]
fn writing_stops_at_each_byte(rt: HostRuntime) -> Result<(), Fail> {
    let alloc = rt.alloc();
    let model = model_of_two_types(alloc)?;
    let prepared = prepare(alloc, &model, 200)?;
    for stop in 0..200 {
        let steps = [Step::Take(stop), Step::Fail];
        check_sent(&rt, alloc, &prepared, &steps, Some(stop));
        check_written(&rt, alloc, &model, &steps, &TWO_TYPES, Some(stop));
    }
    check_sent(&rt, alloc, &prepared, &[Step::Take(200), Step::Fail], None);
    Ok(())
}
