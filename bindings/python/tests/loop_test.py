"""The event loop over the wheel, where asyncio's own tests do not look: what is cancelled is gone, and what is held is released."""
import asyncio
import contextlib
import sys
import time
import weakref

from timers.asyncio import EventLoop, WheelMixin


class Given:
    """An argument, which weak references show to be gone."""


@contextlib.contextmanager
def new_loop():
    loop = EventLoop()
    try:
        yield loop
    finally:
        loop.close()


def drop_what_is_cancelled():
    with new_loop() as loop:
        given = Given()
        calls = [loop.call_later(60 + number, print, given) for number in range(1000)]
        gone = weakref.ref(given)
        del given
        assert len(loop._wheel) == 1000 and all(call._scheduled for call in calls)
        for call in calls:
            call.cancel()
            call.cancel()
            assert not call._scheduled
        assert len(loop._wheel) == 0 and gone() is None and loop._timer_cancelled_count == 0


def run_in_order():
    """Calls of one time run as they were scheduled, and those of another by their times. What has passed comes first."""
    with new_loop() as loop:
        ran, now = [], loop.time()
        for when, name in ((now + .02, "d"), (now + .01, "a"), (now + .01, "b"), (now + .01, "c"), (now - 60, "0"), (-1, "-")):
            loop.call_at(when, ran.append, name)
        never = [loop.call_at(when, ran.append, "never") for when in (float("inf"), 1e300, 1e12)]
        loop.call_at(now + .03, loop.stop)
        loop.run_forever()
        assert ran == ["-", "0", "a", "b", "c", "d"] and all(call._scheduled for call in never)
        assert never[0].when() == float("inf") and len(loop._wheel) == 3


def release_what_is_left():
    given = Given()
    gone = weakref.ref(given)
    with new_loop() as loop:
        call = loop.call_later(60, print, given)
        taken = loop.call_later(0, lambda: None)
        loop.run_until_complete(asyncio.sleep(.001))
        assert not taken._scheduled
        taken.cancel()
    assert not call._scheduled
    call.cancel()
    del given
    assert gone() is None
    for closed in (loop.call_later, loop.call_at):
        try:
            closed(1, print)
        except RuntimeError as error:
            assert str(error) == "Event loop is closed"
        else:
            raise AssertionError("a closed loop took a call")


def put_input_first():
    """What has come by a socket is handled before a time-out of the same turn."""
    import socket

    with new_loop() as loop:
        reader, writer = socket.socketpair()
        ran = []
        loop.add_reader(reader, lambda: ran.append(reader.recv(9)))
        loop.call_soon(writer.send, b"a")
        loop.call_soon(lambda: loop.call_at(loop.time(), ran.append, "late"))
        loop.call_later(.02, loop.stop)
        loop.run_forever()
        loop.remove_reader(reader)
        reader.close(), writer.close()
        assert ran == [b"a", "late"], ran


class Shifted(EventLoop):
    """A loop whose clock begins elsewhere, which it knows only once it was made."""

    def __init__(self, begin):
        super().__init__()
        self.shift = begin - super().time()

    def time(self):
        return super().time() + self.shift


def begin_anywhere():
    """A clock below 0 comes to its timers as any other does, and so does one that counts from 1970."""
    for begin in (-1e6, -5, -.01, 0, 1.8e9):
        loop = Shifted(begin)
        ran = []
        loop.call_later(3600, ran.append, "too early")
        for delay, name in (.02, "b"), (.01, "a"), (-60, "0"), (-90, "-"):
            loop.call_later(delay, ran.append, name)
        loop.call_later(.03, loop.stop)
        started = time.monotonic()
        loop.run_forever()
        assert ran == ["-", "0", "a", "b"] and .029 < time.monotonic() - started < 9, (begin, ran)
        assert len(loop._wheel) == 1
        loop.close()


def call_what_is_no_time():
    """What is scheduled for nan is called at once, as asyncio does. What is for infinity never is, and for minus infinity at once."""
    with new_loop() as loop:
        ran = []
        for delay in (float("nan"), float("inf"), float("-inf")):
            loop.call_later(delay, ran.append, str(delay))
        loop.call_later(.01, loop.stop)
        loop.run_forever()
        assert sorted(ran) == ["-inf", "nan"] and len(loop._wheel) == 1


def stand_first():
    """Behind the loop among the bases the mixin would override nothing: such a class is refused."""
    for bases in ((asyncio.SelectorEventLoop, WheelMixin), (asyncio.BaseEventLoop, WheelMixin)):
        try:
            type("Late", bases, {})
        except TypeError as error:
            assert str(error) == "WheelMixin must stand before the loop among the bases of Late"
        else:
            raise AssertionError("a class was made whose timers are in the heap")
    type("Alone", (WheelMixin,), {})


def use_another_loop():
    """The mixin works with each loop of asyncio, and a runner closes it."""
    class Loop(WheelMixin, asyncio.SelectorEventLoop):
        pass

    async def wait():
        started = asyncio.get_running_loop().time()
        await asyncio.gather(*(asyncio.sleep(.01) for _ in range(10)))
        assert asyncio.get_running_loop().time() >= started + .01 and type(asyncio.get_running_loop()) is Loop
        return "done"

    with asyncio.Runner(loop_factory=Loop) as runner:
        assert runner.run(wait()) == "done"
    if sys.version_info >= (3, 12):
        assert asyncio.run(wait(), loop_factory=Loop) == "done"


if __name__ == "__main__":
    for test in drop_what_is_cancelled, run_in_order, release_what_is_left, put_input_first, begin_anywhere, call_what_is_no_time, stand_first, use_another_loop:
        test()
