"""Timers inside timers, finalizers that take, numbers without end, names of arguments, and a clock of real time."""
# SPDX-License-Identifier: MIT OR Apache-2.0
import gc
import threading
import time
import weakref

from timers import LAST, NOT_PENDING, SMALL, Clock, Timers, TimersError, _clock, at_least


def raises(kind, call, *arguments, **named):
    try:
        call(*arguments, **named)
    except kind as error:
        return str(error)
    raise AssertionError(f"no {kind.__name__}")


def nested(depth, link=lambda timers: timers):
    """Timers whose only action is such timers, and so on. The innermost has an object that tells when it is released."""
    inmost = timers = Timers(SMALL)
    for _ in range(depth):
        outer = Timers(SMALL)
        outer.start(1, link(timers))
        timers = outer
    return timers, inmost


class Told:
    pass


def let_go(held):
    gc.collect()


def release_one_by_one(depth=10000):
    ways = (let_go, Timers.close, Timers.clear, Timers.__init__, Timers.expired)
    for link, way in [*((lambda timers: timers, way) for way in ways), (lambda timers: [timers], let_go), (iter, let_go)]:
        held, inmost = nested(depth, link)
        told = Told()
        gone = weakref.ref(told)
        inmost.start(1, told)
        del told, inmost
        way(held)
        del held
        assert gone() is None
    circle, inmost = nested(depth)
    inmost.start(1, circle)
    gone = weakref.ref(circle)
    del circle, inmost
    gc.collect()
    assert gone() is None


def release_what_is_nested():
    """However deep timers lie in timers, to release the outermost takes no more of the stack, of which there is little here."""
    done, size = [], threading.stack_size(256 * 1024)
    thread = threading.Thread(target=lambda: (release_one_by_one(), done.append(1)))
    thread.start()
    thread.join()
    threading.stack_size(size)
    assert done


class Runs:
    """Runs a function once nothing refers to it."""

    def __init__(self, run):
        self.run = run

    def __del__(self):
        self.run()


def advance_over_a_finalizer():
    """A finalizer may pass ticks itself while an advance takes what expired: the advance returns all the same."""
    timers, threshold = Timers(), gc.get_threshold()
    timers.start(5, 1)
    circle = [Runs(lambda: timers.take(50))]
    circle.append(circle)
    gc.disable()
    try:
        del circle
        # Python has lists that it can use again, and no tuples: so the advance collects at its first tuple.
        kept = [(number, None, None) for number in range(5000)]
        list(map(list, [()] * 50))
        gc.set_threshold(1)
        gc.enable()
        taken = timers.advance(10)
    finally:
        gc.set_threshold(*threshold)
        gc.enable()
    gc.collect()
    assert taken == [(5, 1, 1)] and timers.now() == 50 and len(kept) == 5000


def refuse_long_numbers():
    """A number that Python writes in no decimal digits is out of range, as any other that is too great."""
    timers = Timers()
    for number in (10**4400, -(10**4400), 2**64, -1):
        for call in (timers.start_at, timers.start):
            text = raises(OverflowError, call, number, 1)
            assert text.endswith(" is not from 0 to 2^64 - 1")
        raises(OverflowError, timers.reserve, number)
        raises(OverflowError, Timers, number)
    assert len(timers) == 0


def keep_dead_handles_dead():
    """A handle names no timer of the object after close, clear or a second __init__, whatever is started then."""
    timers = Timers()
    for again in (lambda: (timers.close(), timers.__init__()), timers.__init__, timers.clear):
        old = [timers.start(3, number) for number in range(4)]
        again()
        new = [timers.start(3, number) for number in range(8)]
        assert not any(handle in timers for handle in old) and all(handle in timers for handle in new)
        assert min(handle.serial for handle in new) > max(handle.serial for handle in old)
        assert all(raises(TimersError, timers.stop, handle) == str(TimersError(NOT_PENDING)) for handle in old)
        timers.clear()
    in_between = Timers()

    def open_again():
        in_between.__init__()
        in_between.start(1, 1)

    old = [in_between.start(1, Runs(open_again)), in_between.start(1, 2)]
    in_between.close()
    assert not any(handle in in_between for handle in old)


def name_arguments():
    """The last argument of restart, restart_at and catch_up may be given by its name."""
    timers, ran = Timers(), []
    handle = timers.start(3, "a")
    handle = timers.restart(handle, 4, action="b")
    assert timers.look(handle) == (4, handle.serial, "b")
    handle = timers.restart_at(handle, 5, action=None)
    assert timers.look(handle) == (5, handle.serial, None)
    assert timers.look(timers.restart(handle, 5))[2] is None
    timers.catch_up(9, run=lambda *timer: ran.append(timer[::2]))
    assert ran == [(5, None)]
    timers.catch_up(9, run=None)
    handle = timers.start(1, 1)
    for call, arguments, named in ((timers.restart, (handle, 4), {"act": 1}), (timers.restart, (handle,), {"action": 1}),
                                   (timers.restart, (handle, 4, 1), {"action": 1}), (timers.catch_up, (), {"run": None}),
                                   (timers.catch_up, (1,), {"now": 1}), (timers.restart, (handle, 4), {"action": 1, "x": 2})):
        raises(TypeError, call, *arguments, **named)
    assert timers.look(handle) == (10, handle.serial, 1) and timers.now() == 9


def be_true_while_a_timer_is_held():
    timers, ran = Timers(), []
    assert not timers
    timers.start(1, 1)
    timers.start(2, 2)
    while timers:
        ran.append(timers.take(LAST)[2])
    assert ran == [1, 2] and not timers and len(timers) == 0


class Stopped:
    """The clock of the machine, which a test sets."""

    def __init__(self):
        self.nanos = 10**12

    def monotonic_ns(self):
        return self.nanos


def count_real_time():
    """Ticks of a clock, at times of the machine's clock that are given here."""
    machine, _clock.time = Stopped(), None
    _clock.time = machine
    try:
        clock = Clock(0.001)
        assert (clock.now(), clock.after(0), clock.after(0.1), clock.after(-3), clock.until(5)) == (0, 0, 100, 0, 0.005)
        machine.nanos += 1
        assert (clock.now(), clock.after(0), clock.after(0.1), clock.after(10**9)) == (0, 1, 101, 10**12 + 1)
        machine.nanos += 999_999
        assert (clock.now(), clock.after(0), clock.after(0.0000001), clock.until(1), clock.until(0)) == (1, 1, 2, 0, 0)
        assert Clock(2).after(5) == 3 and Clock(1e-9).after(1e-9) == 1
    finally:
        _clock.time = time
    # the interval, of which a part has passed, is 2.5 ticks at least
    assert (at_least(0.0025), at_least(0.003), at_least(0), at_least(-1), at_least(5, 2)) == (4, 4, 1, 1, 4)
    for wrong in (0, -1, 1e-10):
        assert raises(ValueError, Clock, wrong) == raises(ValueError, at_least, 1, wrong) == "a tick has no length"
    clock, timers = Clock(), Timers()
    begun = time.monotonic()
    timers.start_at(clock.after(0.01), None)
    while timers:
        time.sleep(clock.until(timers.wakeup()))
        timers.catch_up(clock.now(), lambda *timer: None)
    assert time.monotonic() - begun >= 0.01


if __name__ == "__main__":
    for test in (release_what_is_nested, advance_over_a_finalizer, refuse_long_numbers, keep_dead_handles_dead, name_arguments,
                 be_true_while_a_timer_is_held, count_real_time):
        test()
