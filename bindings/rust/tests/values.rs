//! Each value comes back or is dropped, once, wherever its timer ends. tests/rust.bats runs this
//! under valgrind too.
// SPDX-License-Identifier: MIT OR Apache-2.0
use std::cell::Cell;
use std::collections::HashMap;
use std::mem;
use std::panic::{catch_unwind, AssertUnwindSafe};
use std::rc::Rc;
use timers::{Error, Handle, Table, Tick, Ticks, Timers, LAST_OF_SMALL};

/// A value on the heap that counts itself while it lives.
struct Counted {
    living: Rc<Cell<usize>>,
    number: Box<u64>,
}

impl Counted {
    fn new(living: &Rc<Cell<usize>>, number: u64) -> Counted {
        living.set(living.get() + 1);
        Counted { living: Rc::clone(living), number: Box::new(number) }
    }
}

impl Drop for Counted {
    fn drop(&mut self) {
        self.living.set(self.living.get() - 1);
    }
}

/// A `Timers` with ten values, 0 to 9, for the ticks 1 to 10, and their handles.
fn ten() -> (Rc<Cell<usize>>, Timers<Counted>, Vec<Handle>) {
    let living = Rc::new(Cell::new(0));
    let mut timers = Timers::new().unwrap();
    let handles = (0..10).map(|number| timers.start(Ticks(number + 1), Counted::new(&living, number)).unwrap()).collect();
    assert_eq!(living.get(), 10);
    (living, timers, handles)
}

#[test]
fn a_stop_gives_the_value_back() {
    let (living, mut timers, handles) = ten();
    let value = timers.stop(handles[3]).unwrap();
    assert_eq!((*value.number, living.get(), timers.len()), (3, 10, 9));
    drop(value);
    assert!(timers.stop(handles[3]).is_none() && living.get() == 9);
}

#[test]
fn a_take_gives_the_value_back() {
    let (living, mut timers, _) = ten();
    let value = timers.take(Tick(1)).unwrap().value;
    assert_eq!((*value.number, living.get(), timers.len()), (0, 10, 9));
    drop(value);
    timers.advance_to(Tick(2)).unwrap();
    assert_eq!((timers.expire().map(|timer| *timer.value.number), living.get()), (Some(1), 8));
    assert!(timers.take_due(Tick(5)).map(|timer| *timer.value.number).eq(2..5));
    assert_eq!(living.get(), 5);
}

#[test]
fn a_refused_start_gives_the_value_back() {
    let (living, mut timers, mut handles) = ten();
    let refused = timers.start(Ticks(0), Counted::new(&living, 10)).unwrap_err();
    assert_eq!((*refused.value.number, living.get()), (10, 11));
    let refused = timers.start_at(Tick(u64::MAX), refused.value).unwrap_err();
    let refused = timers.set_at(&mut handles[0], Tick(u64::MAX), refused.value).err().unwrap();
    assert_eq!((*refused.value.number, living.get()), (10, 11));
    assert_eq!((Error::from(refused), living.get()), (Error::TooLate, 10));
}

#[test]
fn a_set_gives_the_old_value_back() {
    let (living, mut timers, mut handles) = ten();
    let old = timers.set_at(&mut handles[4], Tick(50), Counted::new(&living, 11)).unwrap().unwrap();
    assert_eq!((*old.number, *timers.get(handles[4]).unwrap().number, living.get()), (4, 11, 11));
}

#[test]
fn a_restart_keeps_the_value() {
    let (living, mut timers, handles) = ten();
    let handle = timers.restart(handles[0], Ticks(7)).unwrap();
    let handle = timers.restart_at(handle, Tick(30)).unwrap();
    *timers.get_mut(handle).unwrap().number = 12;
    assert_eq!(timers.take_due(Tick(29)).count(), 9);
    assert_eq!((timers.take(Tick(30)).map(|timer| *timer.value.number), living.get()), (Some(12), 0));
}

#[test]
fn a_drain_gives_all_values_back() {
    let (living, mut timers, handles) = ten();
    drop(timers.stop(handles[5]));
    timers.advance_to(Tick(1)).unwrap(); // one has expired
    let mut numbers: Vec<u64> = timers.drain().map(|value| *value.number).collect();
    numbers.sort();
    assert_eq!((numbers, living.get()), (vec![0, 1, 2, 3, 4, 6, 7, 8, 9], 0));
    assert!(timers.is_empty() && handles.iter().all(|&handle| timers.get(handle).is_none()));
    timers.start(Ticks(1), Counted::new(&living, 13)).unwrap();
    assert_eq!((timers.take(LAST_OF_SMALL).map(|timer| *timer.value.number), living.get()), (Some(13), 0));
}

#[test]
fn a_clear_and_a_drain_that_ends_early_drop_all_values() {
    let (living, mut timers, _) = ten();
    timers.clear();
    assert_eq!((living.get(), timers.len(), timers.wakeup()), (0, 0, None));
    let (living, mut timers, _) = ten();
    assert!(timers.drain().nth(2).is_some());
    assert_eq!((living.get(), timers.len(), timers.wakeup()), (0, 0, None));
}

#[test]
fn a_drop_drops_all_values() {
    let (living, mut timers, _) = ten();
    timers.advance_to(Tick(1)).unwrap(); // one has expired
    drop(timers);
    assert_eq!(living.get(), 0);
}

/// A drain that is forgotten leaks values, and leaves timers that work.
#[test]
fn a_forgotten_drain_leaves_no_timer() {
    let mut timers = Timers::new().unwrap();
    for value in 0..10 {
        timers.start(Ticks(1), value).unwrap();
    }
    mem::forget(timers.drain());
    assert_eq!((timers.len(), timers.take(Tick(5))), (0, None));
    timers.start(Ticks(1), 14).unwrap();
    assert_eq!(timers.take(Tick(6)).map(|timer| timer.value), Some(14));
}

/// The drop of a value panics in a clear. The others are dropped, and the timers work.
#[test]
fn a_value_that_panics_leaves_the_others_whole() {
    struct Panics(Counted);
    impl Drop for Panics {
        fn drop(&mut self) {
            assert!(*self.0.number != 3, "as the test wants it");
        }
    }
    let living = Rc::new(Cell::new(0));
    let mut timers = Timers::new().unwrap();
    for number in 0..10 {
        timers.start(Ticks(1), Panics(Counted::new(&living, number))).unwrap();
    }
    assert!(catch_unwind(AssertUnwindSafe(|| timers.clear())).is_err());
    assert_eq!((living.get(), timers.len(), timers.wakeup()), (0, 0, None));
    timers.start(Ticks(1), Panics(Counted::new(&living, 15))).unwrap();
    assert_eq!((timers.take(Tick(9)).map(|timer| *timer.value.0.number), living.get()), (Some(15), 0));
}

/// Many slots are used again and again, in an order that stops, restarts and expiries mix.
#[test]
fn a_value_stays_with_its_timer() {
    let living = Rc::new(Cell::new(0));
    let mut timers = Timers::with_table(Table::Small, Tick(0)).unwrap();
    let (mut handles, mut seed) = (HashMap::new(), 1_u64);
    for number in 0..50_000_u64 {
        seed = seed.wrapping_mul(6364136223846793005).wrapping_add(1442695040888963407);
        let handle = timers.start(Ticks(1 + (seed >> 33) % 500), Counted::new(&living, number)).unwrap();
        handles.insert(number, handle);
        let other = (seed >> 40) % (number + 1);
        if seed >> 63 == 0 {
            let stopped = handles.remove(&other).and_then(|handle| timers.stop(handle));
            assert!(stopped.is_none_or(|value| *value.number == other));
        } else if let Some(handle) = handles.get_mut(&other) {
            *handle = timers.restart(*handle, Ticks(77)).unwrap();
        }
        for timer in timers.take_due(Tick(number / 8)) {
            assert_eq!(handles.remove(&timer.value.number).map(Handle::serial), Some(timer.serial));
        }
        assert_eq!((timers.len(), living.get()), (handles.len(), handles.len()));
    }
    assert!(living.get() > 500);
    drop(timers);
    assert_eq!(living.get(), 0);
}

/// Values of no size, and large ones.
#[test]
fn a_value_has_any_size() {
    let mut nothing = Timers::new().unwrap();
    let mut large = Timers::new().unwrap();
    for number in 0..100 {
        nothing.start(Ticks(1 + number), ()).unwrap();
        large.start(Ticks(1 + number), [number; 200]).unwrap();
    }
    assert_eq!((nothing.take_due(Tick(60)).count(), nothing.len()), (60, 40));
    assert!(large.take_due(Tick(100)).map(|timer| timer.value[199]).eq(0..100));
}
