"""Timers on hierarchical timing wheels: starting, stopping and restarting one takes constant time, however many there are.

    from timers import Timers

    timers = Timers()
    handle = timers.start_at(25, "tea")         # at tick 25; an action is any object
    timers.stop(handle)                         # returns "tea"
    timers.start_at(40, print)
    while (timer := timers.take(100)):          # what is due by tick 100, in the order of the deadlines
        deadline, serial, action = timer

A tick is what you choose: a millisecond, a frame. Ticks are whole numbers from 0 to 2^64 - 1, of which a clock has those up
to LAST, and one with the table SMALL those up to SMALL_LAST. What is no such number is refused by OverflowError or TypeError.
A call that the wheels refuse raises TimersError, with its reason as `status`. After each of these nothing has changed.

Each call holds the GIL: threads may share the timers. timers.desk has a desk, an owner's timers for clients in threads,
and timers.asyncio an event loop over these timers.
"""
# SPDX-License-Identifier: MIT OR Apache-2.0
from timers._clock import Clock, at_least
from timers._timers import (
    Handle, Timers, TimersError, __version__,
    # made by tools/facts: names of timers
    WIDE, SMOOTH, SMALL, LAST, SMALL_LAST, OK, NOT_OPEN, OPEN, NO_TABLE, NO_MEMORY, DUE, NOT_PENDING, ZERO_INTERVAL,
    TOO_LATE, SERIALS_SPENT, CLOCK_END,
)

__all__ = [
    "Timers", "Handle", "TimersError", "Clock", "at_least",
    # made by tools/facts: quoted names of timers
    "WIDE", "SMOOTH", "SMALL", "LAST", "SMALL_LAST", "OK", "NOT_OPEN", "OPEN", "NO_TABLE", "NO_MEMORY", "DUE",
    "NOT_PENDING", "ZERO_INTERVAL", "TOO_LATE", "SERIALS_SPENT", "CLOCK_END",
]
