//! Once the scratch is large enough, a job allocates nothing.

mod common;

use std::alloc::{GlobalAlloc, Layout, System};
use std::cell::Cell;

use common::{Sheet, records};
use gelduvra::{Blocks, Scratch, find_optimal_split_point};

/// The system's allocator, counting the calls of each thread.
struct Counting;

thread_local! {
    static CALLS: Cell<u64> = const { Cell::new(0) };
}

fn count() {
    CALLS.with(|calls| calls.set(calls.get() + 1));
}

// SAFETY: every call goes to the system's allocator as it is.
unsafe impl GlobalAlloc for Counting {
    unsafe fn alloc(&self, layout: Layout) -> *mut u8 {
        count();
        unsafe { System.alloc(layout) }
    }

    unsafe fn dealloc(&self, pointer: *mut u8, layout: Layout) {
        count();
        unsafe { System.dealloc(pointer, layout) }
    }

    unsafe fn realloc(&self, pointer: *mut u8, layout: Layout, size: usize) -> *mut u8 {
        count();
        unsafe { System.realloc(pointer, layout, size) }
    }
}

#[global_allocator]
static ALLOCATOR: Counting = Counting;

/// How often `f` asks the allocator.
fn calls_of(f: impl FnOnce()) -> u64 {
    let before = CALLS.with(Cell::get);
    f();
    CALLS.with(Cell::get) - before
}

#[test]
fn nothing_is_allocated_once_warm() {
    let answers: Vec<Sheet> = records("answers.txt").iter().map(|record| record.sheet()).collect();
    let refused = records("refusals.txt");
    let refused: Vec<Sheet> = refused.iter().filter(|r| !r.refuses_text()).map(|record| record.sheet()).collect();
    let all = |scratch: &mut Scratch| {
        for sheet in answers.iter().chain(&refused) {
            let _ = scratch.propose_split(&sheet.job());
            assert_eq!(scratch.uses().inst.len(), scratch.uses().weight.len());
        }
    };
    let mut scratch = Scratch::new();
    assert!(calls_of(|| all(&mut scratch)) > 0, "the first round must make the tables grow");
    assert_eq!(calls_of(|| all(&mut scratch)), 0);

    let mut large = Scratch::for_any_job();
    let long: Vec<Sheet> = records("long.txt").iter().map(|record| record.sheet()).collect();
    let calls = calls_of(|| {
        all(&mut large);
        for sheet in &long {
            let _ = large.propose_split(&sheet.job());
        }
    });
    assert_eq!(calls, 0);

    let blocks = Blocks { freq: &[2.0, 1.0], first: &[0, 4], end: &[4, 8] };
    assert_eq!(calls_of(|| assert_eq!(find_optimal_split_point(&blocks, 0, 8, true), Ok(4))), 0);
}
