//! The values of timers. The action that C keeps for a timer is the number of its value's slot.
// SPDX-License-Identifier: MIT OR Apache-2.0
use crate::Error;
use alloc::vec::{self, Vec};
use core::mem;

#[derive(Debug)]
enum Slot<T> {
    /// The slot that is vacant after this one, or the number of slots if there is none.
    Vacant(usize),
    Held(T),
}

/// Values in slots that stay where they are.
pub(crate) struct Values<T> {
    slots: Vec<Slot<T>>,
    /// The first vacant slot, or the number of slots.
    vacant: usize,
    len: usize,
}

impl<T> Values<T> {
    pub(crate) const fn new() -> Values<T> {
        Values { slots: Vec::new(), vacant: 0, len: 0 }
    }

    pub(crate) fn len(&self) -> usize {
        self.len
    }

    /// Makes room for `most` values at once.
    pub(crate) fn reserve(&mut self, most: usize) -> Result<(), Error> {
        let more = most.saturating_sub(self.slots.len());
        self.slots.try_reserve_exact(more).map_err(|_| Error::NoMemory)
    }

    /// Makes room for one value, and returns the slot that it will get.
    pub(crate) fn vacancy(&mut self) -> Result<usize, Error> {
        if self.vacant == self.slots.len() {
            self.slots.try_reserve(1).map_err(|_| Error::NoMemory)?;
        }
        Ok(self.vacant)
    }

    /// Puts a value into the slot of `vacancy`.
    pub(crate) fn put(&mut self, value: T) {
        self.len += 1;
        if self.vacant == self.slots.len() {
            self.slots.push(Slot::Held(value));
            self.vacant = self.slots.len();
        } else if let Slot::Vacant(next) = mem::replace(&mut self.slots[self.vacant], Slot::Held(value)) {
            self.vacant = next;
        }
    }

    /// Takes the value out of its slot.
    pub(crate) fn take(&mut self, slot: usize) -> T {
        match mem::replace(&mut self.slots[slot], Slot::Vacant(self.vacant)) {
            Slot::Held(value) => {
                self.vacant = slot;
                self.len -= 1;
                value
            }
            Slot::Vacant(_) => unreachable!("a timer without a value"),
        }
    }

    pub(crate) fn get(&self, slot: usize) -> &T {
        match &self.slots[slot] {
            Slot::Held(value) => value,
            Slot::Vacant(_) => unreachable!("a timer without a value"),
        }
    }

    pub(crate) fn get_mut(&mut self, slot: usize) -> &mut T {
        match &mut self.slots[slot] {
            Slot::Held(value) => value,
            Slot::Vacant(_) => unreachable!("a timer without a value"),
        }
    }

    /// Removes all values, and keeps the room. If the iterator is forgotten there is none left all the same.
    pub(crate) fn drain(&mut self) -> Drain<'_, T> {
        (self.vacant, self.len) = (0, 0);
        Drain { slots: self.slots.drain(..) }
    }
}

/// The values of all timers, in no particular order: see [`Timers::drain`](crate::Timers::drain). It drops those that are
/// left.
#[derive(Debug)]
pub struct Drain<'a, T> {
    slots: vec::Drain<'a, Slot<T>>,
}

impl<T> Iterator for Drain<'_, T> {
    type Item = T;

    fn next(&mut self) -> Option<T> {
        self.slots.find_map(|slot| match slot {
            Slot::Held(value) => Some(value),
            Slot::Vacant(_) => None,
        })
    }
}

impl<T> core::iter::FusedIterator for Drain<'_, T> {}
