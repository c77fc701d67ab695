// Misuses that the compiler refuses. It compiles as it is; with one of these names as a cfg it must not.
// tests/headers.bats of the repository compares what the compiler says with the comment of each.
// SPDX-License-Identifier: MIT OR Apache-2.0
#![allow(unused_mut, unused_variables)]
use std::rc::Rc;
use timers::desk::{Config, Desk, Line};
use timers::{Handle, Tick, Ticks, Timer, Timers};

fn is_sent(_: impl Send) {}

#[allow(dead_code)]
fn is_shared(_: impl Sync) {}

fn of_timers(mut timers: Timers<u64>) {
    #[cfg(shared)] // cannot be shared between threads safely
    is_shared(timers);
    #[cfg(sent_with_a_value_that_stays)] // cannot be sent between threads safely
    is_sent(Timers::<Rc<u64>>::new().unwrap());
    #[cfg(cloned)] // no method named `clone` found
    let other = timers.clone();
    #[cfg(used_after_a_move)] // borrow of moved value
    {
        is_sent(timers);
        timers.now();
    }
    #[cfg(changed_in_an_iteration)] // cannot borrow `timers` as mutable
    for (handle, _) in timers.iter() {
        timers.stop(handle);
    }
    #[cfg(changed_while_they_expire)] // cannot borrow `timers` as mutable
    for timer in timers.take_due(Tick(5)) {
        timers.start(Ticks(5), timer.value).unwrap();
    }
    #[cfg(value_kept_after_a_change)] // cannot borrow `timers` as mutable
    {
        let value = timers.get_mut(Handle::default()).unwrap();
        timers.clear();
        *value = 1;
    }
    #[cfg(handle_made_by_hand)] // are private
    let handle = Handle { place: 0, serial: 1 };
    #[cfg(started_for_an_interval_by_a_deadline)] // expected `Ticks`, found `Tick`
    timers.start(timers.now(), 1).unwrap();
    #[cfg(started_at_an_interval)] // expected `Tick`, found `Ticks`
    timers.start_at(Ticks(5), 1).unwrap();
    #[cfg(started_by_a_bare_number)] // expected `Ticks`, found integer
    timers.start(5, 1).unwrap();
    #[cfg(timer_made_by_hand)] // cannot create non-exhaustive struct
    let timer = Timer { deadline: Tick(0), serial: 1, value: 2 };
}

fn of_a_desk(desk: Desk, mut lines: Vec<Line>) {
    #[cfg(desk_sent)] // cannot be sent between threads safely
    is_sent(desk);
    #[cfg(desk_shared)] // cannot be shared between threads safely
    is_shared(desk);
    #[cfg(line_shared)] // cannot be shared between threads safely
    is_shared(lines.pop());
    #[cfg(request_for_an_interval_by_a_deadline)] // expected `Ticks`, found `Tick`
    lines[0].start(desk.now(), 1).unwrap();
    #[cfg(line_used_after_a_move)] // borrow of moved value
    {
        is_sent(lines);
        lines.pop();
    }
}

fn main() {
    let (desk, mut lines) = Desk::new(2, Config::new(10, 4, 4)).unwrap();
    is_sent((lines.pop(), Timers::<String>::new(), Handle::default(), None::<Timer<Rc<u64>>>.is_none()));
    of_timers(Timers::new().unwrap());
    of_a_desk(desk, lines);
}
