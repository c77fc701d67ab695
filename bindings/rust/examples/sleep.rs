// Futures that sleep, on an executor of one thread: the timers own the wakers. A runtime with timers of its own, as tokio,
// needs none of this: there a task that owns timers sleeps until `clock.instant(tick)`.
//
//     cargo run --example sleep
// SPDX-License-Identifier: MIT OR Apache-2.0
use std::cell::RefCell;
use std::future::Future;
use std::pin::Pin;
use std::rc::Rc;
use std::sync::{Arc, Mutex};
use std::task::{Context, Poll, Wake, Waker};
use std::thread;
use std::time::Duration;
use timers::{Clock, Error, Handle, Tick, Timers};

type Sleepers = Rc<RefCell<Timers<Waker>>>;

/// Sleeps until a tick. One that is dropped before stops its timer.
struct Sleep {
    sleepers: Sleepers,
    clock: Clock,
    tick: Tick,
    handle: Handle,
}

impl Future for Sleep {
    type Output = Result<(), Error>;

    fn poll(mut self: Pin<&mut Self>, context: &mut Context<'_>) -> Poll<Self::Output> {
        let this = &mut *self;
        if this.clock.now() >= this.tick {
            return Poll::Ready(Ok(()));
        }
        // The waker of the last poll counts. The first poll starts the timer.
        let set = this.sleepers.borrow_mut().set_at(&mut this.handle, this.tick, context.waker().clone());
        set.map_or_else(|refused| Poll::Ready(Err(refused.error)), |_| Poll::Pending)
    }
}

impl Drop for Sleep {
    fn drop(&mut self) {
        self.sleepers.borrow_mut().stop(self.handle);
    }
}

/// The waker of a task: it puts the task's number among those to be polled.
struct Task {
    number: usize,
    woken: Arc<Mutex<Vec<usize>>>,
}

impl Wake for Task {
    fn wake(self: Arc<Self>) {
        self.woken.lock().unwrap().push(self.number);
    }
}

type Job = Pin<Box<dyn Future<Output = Result<(), Error>>>>;

/// Runs all jobs to their end.
fn run(sleepers: &Sleepers, clock: Clock, jobs: Vec<Job>) -> Result<(), Error> {
    let woken = Arc::new(Mutex::new((0..jobs.len()).collect::<Vec<_>>()));
    let mut jobs: Vec<Option<Job>> = jobs.into_iter().map(Some).collect();
    while jobs.iter().any(Option::is_some) {
        for number in std::mem::take(&mut *woken.lock().unwrap()) {
            let waker = Waker::from(Arc::new(Task { number, woken: Arc::clone(&woken) }));
            let polled = jobs[number].as_mut().map(|job| job.as_mut().poll(&mut Context::from_waker(&waker)));
            if let Some(Poll::Ready(done)) = polled {
                done?;
                jobs[number] = None;
            }
        }
        let wakeup = sleepers.borrow().wakeup();
        thread::sleep(wakeup.map_or(Duration::ZERO, |tick| clock.until(tick)));
        for timer in sleepers.borrow_mut().take_due(clock.now()) {
            timer.value.wake();
        }
    }
    Ok(())
}

fn main() -> Result<(), Error> {
    let clock = Clock::new(Duration::from_millis(1));
    let sleepers = Rc::new(RefCell::new(Timers::new()?));
    let sleep = |tick| Sleep { sleepers: Rc::clone(&sleepers), clock, tick, handle: Handle::default() };
    let (egg, tea, call) = (sleep(Tick(24)), sleep(Tick(30)), sleep(Tick(90_000)));
    let jobs: Vec<Job> = vec![
        Box::pin(async {
            tea.await?;
            println!("tea");
            Ok(())
        }),
        Box::pin(async {
            egg.await?;
            println!("egg");
            drop(call);
            Ok(())
        }),
    ];
    run(&sleepers, clock, jobs)?;
    assert!(sleepers.borrow().is_empty());
    Ok(())
}
