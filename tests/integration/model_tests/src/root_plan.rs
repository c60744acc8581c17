//! Tests of `Prepared::send`: bytes are sent to writers that take a part, are interrupted or fail.

use crate::scripted::{Scripted, Step};
use writer::{Counted, Sink, Stopped, send_all};
use std::alloc::Global;
use std::process::Abort;
use std::test::Fail;

/// Bytes that differ from their neighbours.
fn numbered<const N: usize>() -> [u8; N] {
    let mut bytes = [0; N];
    for (index, byte) in bytes.iter_mut().enumerate() {
        *byte = (index % 251) as u8;
    }
    bytes
}

/// Sends bytes to a writer of these steps: the answer, what went out, and the count of failures.
fn check(rt: &impl Abort, alloc: Global, bytes: &[u8], steps: &[Step], given: Option<usize>) {
    let mut sink = Counted::new(Scripted::new(alloc, steps));
    assert_eq!(rt; sink.failures(), 0);
    let answer = send_all(bytes, &mut sink);
    let failures = sink.failures();
    let writer = sink.into_inner();
    match given {
        None => {
            assert_eq!(rt; answer, Ok(()));
            assert_eq!(rt; failures, 0);
            assert_eq!(rt; writer.bytes(), bytes);
        }
        Some(given) => {
            assert_eq!(rt;
                answer,
                Err(Stopped {
                    given: given as u64
                })
            );
            assert_eq!(rt; failures, 1);
            assert!(rt; given <= bytes.len());
            assert_eq!(rt; writer.bytes(), &bytes[..given]);
        }
    }
}

#[test]
fn all_or_a_prefix(rt: HostRuntime) {
    let bytes = numbered::<144>();
    let one_a_call = [Step::Take(1); 144];
    let rows: [(&[Step], Option<usize>); 9] = [
        (&[], None),
        (&one_a_call, None),
        (&[Step::Take(100), Step::Fail], Some(100)),
        (&[Step::Fail], Some(0)),
        (&[Step::Take(28), Step::Take(0)], Some(28)),
        (&[Step::Take(16), Step::Interrupt], Some(16)),
        (&[Step::Take(143)], None),
        (&[Step::Take(143), Step::Interrupt], Some(143)),
        (&[Step::Take(144), Step::Fail], None),
    ];
    for (steps, given) in rows {
        check(&rt, rt.alloc(), &bytes, steps, given);
    }
}

#[test]
fn stops_at_each_byte(rt: HostRuntime) {
    let bytes = numbered::<200>();
    for stop in 0..200 {
        check(
            &rt,
            rt.alloc(),
            &bytes,
            &[Step::Take(stop), Step::Fail],
            Some(stop),
        );
    }
}

#[test]
fn no_bytes_are_not_offered(rt: HostRuntime) {
    check(&rt, rt.alloc(), &[], &[Step::Fail], None);
}

#[test]
fn failures_are_counted_on(rt: HostRuntime) -> Result<(), Fail> {
    let steps = [Step::Fail, Step::Take(1), Step::Interrupt, Step::Take(0)];
    let mut sink = Counted::new(Scripted::new(rt.alloc(), &steps));
    assert_eq!(rt; send_all(b"ab", &mut sink), Err(Stopped { given: 0 }));
    assert_eq!(rt; sink.failures(), 1);
    assert_eq!(rt; send_all(b"ab", &mut sink), Err(Stopped { given: 1 }));
    assert_eq!(rt; sink.failures(), 2);
    assert_eq!(rt; sink.offer(b"")?, 0);
    assert_eq!(rt; sink.failures(), 2);
    assert_eq!(rt; send_all(b"cd", &mut sink), Ok(()));
    assert_eq!(rt; sink.into_inner().bytes(), b"acd".as_slice());
    Ok(())
}
