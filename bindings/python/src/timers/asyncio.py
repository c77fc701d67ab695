"""An event loop of asyncio whose call_later and call_at are timers of a wheel.

    import asyncio
    from timers.asyncio import EventLoop

    with asyncio.Runner(loop_factory=EventLoop) as runner:      # from Python 3.12 on: asyncio.run(main(), loop_factory=EventLoop)
        runner.run(main())

asyncio's own loops keep timers in a heap, in which a cancelled one stays until its time comes or a clean-up finds it. Here a
cancelled timer is gone at once. Calls of one nanosecond run in the order in which they were scheduled. WheelMixin makes such a
loop of each that is derived from asyncio.BaseEventLoop.
"""
# SPDX-License-Identifier: MIT OR Apache-2.0
import asyncio
from asyncio import BaseEventLoop, events

from timers import LAST, Timers

__all__ = ["EventLoop", "WheelMixin"]

_TICKS = 1e9  # of a second
_PAST = 2**55  # ticks, 417 days


class WheelMixin:
    """What overrides the timers of an asyncio.BaseEventLoop, before which it must stand among the bases of a class.

    The list `_scheduled`, the heap of that loop, has nothing but an alarm, and only until the loop has slept. Then what is due
    is ready, behind what the input has made ready. The attribute `_scheduled` of a TimerHandle is the handle of its timer, or
    False.
    """

    def __init_subclass__(cls, **named):
        super().__init_subclass__(**named)
        bases = cls.__mro__
        if BaseEventLoop in bases and bases.index(BaseEventLoop) < bases.index(WheelMixin):
            raise TypeError(f"WheelMixin must stand before the loop among the bases of {cls.__name__}")

    def __init__(self, *arguments, **named):
        super().__init__(*arguments, **named)
        self._wheel = Timers()
        self._origin = None
        self._alarm = events.TimerHandle(0, self._take_due, (), self)

    def _tick_of(self, when):
        """The tick in which this time is. What is after the last one never comes, and nan is due at once, as in asyncio.

        The loop's clock may begin anywhere: its first time is the tick _PAST. Calls
        whose time has passed come in the order in which they were made, and not in that of their times.
        """
        if self._origin is None:  # in __init__ a class that overrides time() may not be ready for it
            self._origin = int(self.time() * _TICKS) - _PAST
        try:
            tick = int(when * _TICKS) - self._origin
        except (OverflowError, ValueError):  # infinity; nan
            return LAST if when > 0 else 0
        return 0 if tick < 0 else LAST if tick > LAST else tick

    def call_at(self, when, callback, *args, context=None):
        """Arranges that the callback is called at this time of the loop's clock. Returns its TimerHandle."""
        if when is None:
            raise TypeError("when cannot be None")
        self._check_closed()
        if self._debug:
            self._check_thread()
            self._check_callback(callback, "call_at")
        call = events.TimerHandle(when, callback, args, self, context)
        if call._source_traceback:
            del call._source_traceback[-1]
        call._scheduled = self._wheel.start_at(self._tick_of(when), call)
        return call

    def close(self):
        """Closes the loop, and drops its timers."""
        super().close()
        for _, (_, _, call) in self._wheel:
            call._scheduled = False
        self._wheel.close()

    def _timer_handle_cancelled(self, call):
        if call._scheduled:
            self._wheel.stop(call._scheduled)
            call._scheduled = False

    def _take_due(self):
        take, now = self._wheel.take, self._tick_of(self.time())
        while timer := take(now):
            call = timer[2]
            call._scheduled = False
            self._ready.append(call)

    def _process_events(self, event_list):
        super()._process_events(event_list)
        self._scheduled.clear()
        self._take_due()

    def _run_once(self):
        # Before this tick nothing is due. To ask for the exact deadline could take longer than to wake up for nothing now and then.
        if (tick := self._wheel.wakeup()) is not None:
            self._alarm._when = (tick + self._origin) / _TICKS
            self._scheduled.append(self._alarm)
        super()._run_once()


class EventLoop(WheelMixin, asyncio.SelectorEventLoop):
    """asyncio.SelectorEventLoop with timers of a wheel."""
