"""A clock of real time, in ticks."""
# SPDX-License-Identifier: MIT OR Apache-2.0
import time

NANOS_OF_SECOND = 10**9


def _nanos(seconds: float) -> int:
    """The time in nanoseconds, to the nearest one."""
    return seconds * NANOS_OF_SECOND if isinstance(seconds, int) else round(seconds * NANOS_OF_SECOND)


def _checked(tick: float) -> int:
    nanos = _nanos(tick)
    if nanos <= 0:
        raise ValueError("a tick has no length")
    return nanos


def at_least(seconds: float, tick: float = 0.001) -> int:
    """The fewest ticks of this length that last at least this long, whatever part of the present tick has passed.

    It is the interval of a time-out that must not come early, for a start while now() is the tick of the real time.
    """
    return -(-_nanos(max(seconds, 0)) // _checked(tick)) + 1


class Clock:
    """A clock of real time in ticks of this many seconds, for the deadlines of Timers. Tick 0 begins now.

    A timer that is started for after() and taken by now() never comes early: both are rounded towards late. It counts from
    the call, and not from the tick up to which the timers were advanced. The clock is that of time.monotonic.
    """

    def __init__(self, tick: float = 0.001) -> None:
        self._tick = _checked(tick)
        self._start = time.monotonic_ns()

    def now(self) -> int:
        """The last tick that has begun."""
        return (time.monotonic_ns() - self._start) // self._tick

    def after(self, seconds: float) -> int:
        """The first tick that begins no earlier than so many seconds from now: the deadline of a time-out."""
        passed = time.monotonic_ns() - self._start + _nanos(max(seconds, 0))
        return -(-passed // self._tick)

    def until(self, tick: int) -> float:
        """How many seconds it is until a tick begins: how long to sleep, or to wait for input. 0 if it has begun."""
        return max(self._start + tick * self._tick - time.monotonic_ns(), 0) / NANOS_OF_SECOND
