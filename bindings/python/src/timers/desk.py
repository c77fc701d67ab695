"""A desk of timers: one owner, and up to CLIENTS clients, each in a thread of its own. timers_desk.h has the whole of it.

    from timers.desk import Desk

    with Desk(clients=2, capacity=1000, timers=50, requests=8) as desk:
        line = desk.lines[0]            # for the thread of client 0
        line.start(25, 7)
        desk.serve_all(), desk.flush_all()
        line.receive()                  # Word(kind=STARTED, reason=0, number=1, ..)

The owner's thread calls the desk, and each client's thread its line. Both are freed by free(), at the end of their `with`, or
once nothing refers to them. Numbers, actions among them, are whole and from 0 to 2^64 - 1, that of a table to 2^32 - 1, and on
a 32-bit system so are a client's and the room of `open`: any other is refused by OverflowError or TypeError. So is a sum of
`timers` and `requests` above 2^64 - 2. A call that the library refuses raises DeskError, but those of serve and serve_all,
which return their status. No call waits, and each holds the GIL.
"""
# SPDX-License-Identifier: MIT OR Apache-2.0
from timers._timers import (
    CLIENTS, Desk, DeskError, Handle, Line, Word, room_for,
    # made by tools/facts: names of desks
    WIDE, SMOOTH, SMALL, OK, NOT_OPEN, OPEN, NO_MEMORY, NOT_PENDING, ZERO_INTERVAL, TOO_LATE, SERIALS_SPENT, CLOCK_END,
    CLOSED, CAPACITY, NO_CLIENT, NUMBERS_SPENT, REPEATED, AHEAD, LINE_FULL, FINISHED, OUT_OF_RANGE, IDLE, NO_ROOM,
    OTHER_LINE, NOT_FINISHED, LEFT, NOT_FREED, STARTED, RESTARTED, STOPPED, REFUSED, NOT_TAKEN, EXPIRED, RETURNED,
)

__all__ = [
    "Desk", "Line", "Word", "Handle", "DeskError", "room_for", "CLIENTS",
    # made by tools/facts: quoted names of desks
    "WIDE", "SMOOTH", "SMALL", "OK", "NOT_OPEN", "OPEN", "NO_MEMORY", "NOT_PENDING", "ZERO_INTERVAL", "TOO_LATE",
    "SERIALS_SPENT", "CLOCK_END", "CLOSED", "CAPACITY", "NO_CLIENT", "NUMBERS_SPENT", "REPEATED", "AHEAD", "LINE_FULL",
    "FINISHED", "OUT_OF_RANGE", "IDLE", "NO_ROOM", "OTHER_LINE", "NOT_FINISHED", "LEFT", "NOT_FREED", "STARTED",
    "RESTARTED", "STOPPED", "REFUSED", "NOT_TAKEN", "EXPIRED", "RETURNED",
]
