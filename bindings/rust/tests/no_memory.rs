//! Memory runs out at each allocation in turn, of C and of the values. One test: the library takes its allocator once.
// SPDX-License-Identifier: MIT OR Apache-2.0
use std::alloc::{GlobalAlloc, Layout, System};
use std::cell::Cell;
use std::ffi::{c_uint, c_void};
use timers::{Error, Tick, Ticks, Timers};

const UNLIMITED: u32 = u32::MAX;

thread_local! {
    /// How many more allocations of this thread are granted.
    static GRANTED: Cell<u32> = const { Cell::new(UNLIMITED) };
}

fn is_granted() -> bool {
    let left = GRANTED.get();
    if left != UNLIMITED {
        GRANTED.set(left.saturating_sub(1));
    }
    left > 0
}

struct Limited;

// SAFETY: it is the system's allocator, or refuses.
unsafe impl GlobalAlloc for Limited {
    unsafe fn alloc(&self, layout: Layout) -> *mut u8 {
        if is_granted() {
            unsafe { System.alloc(layout) }
        } else {
            std::ptr::null_mut()
        }
    }
    unsafe fn realloc(&self, block: *mut u8, layout: Layout, size: usize) -> *mut u8 {
        if is_granted() {
            unsafe { System.realloc(block, layout, size) }
        } else {
            std::ptr::null_mut()
        }
    }
    unsafe fn dealloc(&self, block: *mut u8, layout: Layout) {
        unsafe { System.dealloc(block, layout) }
    }
}

#[global_allocator]
static LIMITED: Limited = Limited;

unsafe extern "C" {
    fn malloc(size: usize) -> *mut c_void;
    fn realloc(block: *mut c_void, size: usize) -> *mut c_void;
    fn free(block: *mut c_void);
    fn timers_set_allocator(
        allocate: unsafe extern "C" fn(usize) -> *mut c_void,
        resize: unsafe extern "C" fn(*mut c_void, usize) -> *mut c_void,
        release: unsafe extern "C" fn(*mut c_void),
    ) -> c_uint;
}

unsafe extern "C" fn allocate(size: usize) -> *mut c_void {
    if is_granted() {
        unsafe { malloc(size) }
    } else {
        std::ptr::null_mut()
    }
}

unsafe extern "C" fn resize(block: *mut c_void, size: usize) -> *mut c_void {
    if is_granted() {
        unsafe { realloc(block, size) }
    } else {
        std::ptr::null_mut()
    }
}

/// A value that counts itself while it lives, without memory of its own.
struct Counted<'a> {
    living: &'a Cell<u64>,
    number: u64,
}

impl<'a> Counted<'a> {
    fn new(living: &'a Cell<u64>, number: u64) -> Counted<'a> {
        living.set(living.get() + 1);
        Counted { living, number }
    }
}

impl Drop for Counted<'_> {
    fn drop(&mut self) {
        self.living.set(self.living.get() - 1);
    }
}

/// Starts timers until memory is out after so many allocations, and returns how many were started; `None` if not even a
/// `Timers` was made.
fn run_out_after(allocations: u32) -> Option<u64> {
    let living = Cell::new(0);
    GRANTED.set(allocations);
    let made = Timers::new();
    let started = made.map(|mut timers| {
        let mut started = 0;
        let refused = loop {
            match timers.start(Ticks(1 + started), Counted::new(&living, started)) {
                Ok(_) => started += 1,
                Err(refused) => break refused,
            }
        };
        GRANTED.set(UNLIMITED);
        assert_eq!((refused.error, refused.value.number), (Error::NoMemory, started));
        assert_eq!((living.get(), timers.len() as u64), (started + 1, started));
        timers.start(Ticks(1 + started), refused.value).unwrap_or_else(|refused| panic!("{refused}"));
        assert!(timers.take_due(Tick(1 + started)).map(|timer| timer.value.number).eq(0..=started));
        assert_eq!(living.get(), 0);
        started
    });
    GRANTED.set(UNLIMITED);
    assert!(matches!(started, Ok(_) | Err(Error::NoMemory)));
    started.ok()
}

/// Room is for timers that are held, too: after `reserve` all those that it was asked for start without memory.
fn room_counts_what_is_held(held: u64, most: u64) {
    let mut timers = Timers::new().unwrap();
    for number in 0..held {
        timers.start(Ticks(1), number).unwrap();
    }
    timers.reserve(most as usize).unwrap();
    GRANTED.set(0);
    let started = (held..most).all(|number| timers.start(Ticks(1), number).is_ok());
    GRANTED.set(UNLIMITED);
    assert!(started, "{held} of {most}");
}

#[test]
fn a_start_without_memory_changes_nothing_and_gives_the_value_back() {
    assert_eq!(unsafe { timers_set_allocator(allocate, resize, free) }, 0);
    let started: Vec<Option<u64>> = (0..30).map(run_out_after).collect();
    assert!(started[0].is_none() && started.contains(&Some(0)) && started.is_sorted());
    assert!(started[29] > Some(1000));
    for held in 0..40 {
        room_counts_what_is_held(held, 40);
    }
}
