//! Measures calls on the roots of `python/tests/hostile_roots.py` in the folder that CLIM_HOSTILE names. Without it nothing
//! is measured.
//!
//! Memory is what this crate allocates. What the library allocates is not counted, and `c/clim.h` says how much it is.

use clim::{Cell, Table, Tables, Token, View};
use std::alloc::{GlobalAlloc, Layout, System};
use std::cell::Cell as Counter;
use std::{env, fs};

/// How often the memory for half the bytes that for all bytes may be.
const MOST_MEMORY: f64 = 2.3;

/// The same of the time, which caches and other programs change. A square gives 4.
const MOST_TIME: f64 = 2.8;

/// A call is measured this number of times at most, until the least of each size show that it grows as it may.
const RUNS: usize = 100;

/// An allocator that counts the bytes of each thread.
struct Counting;

thread_local! {
    static USED: Counter<isize> = const { Counter::new(0) };
    static PEAK: Counter<isize> = const { Counter::new(0) };
}

/// Counts bytes that were allocated, or freed if there are fewer than 0.
fn count(bytes: isize) {
    USED.set(USED.get() + bytes);
    PEAK.set(PEAK.get().max(USED.get()));
}

// SAFETY: Each call is one of the system's allocator.
unsafe impl GlobalAlloc for Counting {
    unsafe fn alloc(&self, layout: Layout) -> *mut u8 {
        count(layout.size() as isize);
        // SAFETY: The caller ensures what the call requires.
        unsafe { System.alloc(layout) }
    }

    unsafe fn dealloc(&self, at: *mut u8, layout: Layout) {
        count(-(layout.size() as isize));
        // SAFETY: The caller ensures what the call requires.
        unsafe { System.dealloc(at, layout) }
    }
}

#[global_allocator]
static COUNTING: Counting = Counting;

/// The largest number of bytes that are allocated during a call.
fn peak(view: &View, call: fn(&View)) -> f64 {
    let before = USED.get();
    PEAK.set(before);
    call(view);
    (PEAK.get() - before) as f64
}

/// A time of the C library.
#[repr(C)]
struct Time {
    seconds: i64,
    nanoseconds: i64,
}

/// The clock of the processor time of a thread. What /proc says of that time is late by up to a tick of the system.
const THREAD_CLOCK: i32 = 3;

unsafe extern "C" {
    fn clock_gettime(clock: i32, time: *mut Time) -> i32;
}

/// The processor time of this thread, in nanoseconds.
fn now() -> f64 {
    let mut time = Time { seconds: 0, nanoseconds: 0 };
    // SAFETY: The pointer is valid, and the type is that of the C library.
    assert_eq!(unsafe { clock_gettime(THREAD_CLOCK, &mut time) }, 0);
    time.seconds as f64 * 1e9 + time.nanoseconds as f64
}

/// The time of a call.
fn nanoseconds(view: &View, call: fn(&View)) -> f64 {
    let begun = now();
    call(view);
    now() - begun
}

/// What is measured of a call on a root may grow as its bytes do.
fn is_linear(name: &str, (measure, most): (fn(&View, fn(&View)) -> f64, f64), call: fn(&View)) {
    let Ok(folder) = env::var("CLIM_HOSTILE") else {
        return;
    };
    let roots = [1, 2, 4].map(|times| fs::read(format!("{folder}/{name}.{times}")).expect("a root"));
    let mut least = [f64::INFINITY; 3];
    for _ in 0..RUNS {
        for (least, root) in least.iter_mut().zip(&roots) {
            *least = measure(&View::open_root(root).expect("a valid root"), call).min(*least);
        }
        if least[2] <= least[0] * most * most {
            println!("{name}: {least:?}");
            return;
        }
    }
    panic!("{name} grows: {least:?}");
}

#[test]
fn full_names_of_all_types() {
    for name in ["nested_in_one", "nested_out_of_order"] {
        is_linear(name, (nanoseconds, MOST_TIME), |view| {
            for row in 1..=view.count(Table::TypeDef) {
                assert!(view.full_name(row).ends_with('a'));
            }
        });
    }
}

#[test]
fn types_by_their_full_names() {
    for name in ["nested_in_one", "nested_out_of_order"] {
        for measured in [(nanoseconds as fn(&View, fn(&View)) -> f64, MOST_TIME), (peak, MOST_MEMORY)] {
            is_linear(name, measured, |view| {
                let full_name = view.full_name(view.count(Table::TypeDef));
                assert!(view.find_full_name(&full_name).is_some());
                assert!(view.find_full_name(&format!("{full_name}/none")).is_none());
            });
        }
    }
}

#[test]
fn arguments_of_an_attribute() {
    for measured in [(nanoseconds as fn(&View, fn(&View)) -> f64, MOST_TIME), (peak, MOST_MEMORY)] {
        is_linear("one_array", measured, |view| {
            let arguments = view.arguments_of(1).expect("a newer library").expect("a value");
            assert_eq!(arguments.fixed.len(), 1);
        });
    }
}

#[test]
fn tables_of_a_view() {
    for name in ["one_text", "endings", "one_plain_blob", "overlapping_blobs"] {
        is_linear(name, (peak, MOST_MEMORY), |view| drop(Tables::of(view)));
    }
    // The canonical root of blobs that overlap has each of them, so that its length grows with the square.
    for name in ["one_text", "endings", "one_plain_blob"] {
        is_linear(name, (peak, MOST_MEMORY), |view| {
            let mut tables = Tables::of(view);
            for table in [Table::ModuleRef, Table::File] {
                let column = table.columns().position(|it| it == "Name").expect("a column");
                tables.set(Token { table, row: 1 }, column, Cell::Text("changed"));
            }
            assert!(!clim_sys::HAS_TABLES || tables.root().is_ok());
        });
    }
}
