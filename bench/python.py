#!/usr/bin/env python3
"""Measures the package for Python beside heapq and asyncio's own timers, each as a user of Python would use it.

    python.py [--pending 1000,50000] [--rounds 9] [--count]

Processor time of an operation in ns, the least of the rounds, in which the candidates take turns in one process. In
parentheses is the median. --count adds a table of instructions, by callgrind: those of a run
less those of one that does all but the operation. The package is compiled from the repository. Two tables: python (single
operations, and loads) and python_instructions. Status 1: candidates disagree on what expired.

An event loop's clock is the load's: nothing sleeps, and asyncio's loops have no input.
"""
import argparse
import asyncio
import functools
import gc
import heapq
import itertools
import os
import random
import re
import subprocess
import sys
import time

import figures
from figures import HERE, fail, number

BUILT = os.path.join(HERE, "build", "python")
SECONDS = 1e-3  # of a tick, for asyncio


class Heap:
    """A priority queue as the documentation of heapq has it. What is stopped is marked, and stays until its time has come."""

    def __init__(self):
        self.heap, self.counter, self.stopped = [], itertools.count(), 0

    def start(self, deadline, action):
        entry = [deadline, next(self.counter), action]
        heapq.heappush(self.heap, entry)
        return entry

    def stop(self, entry):
        entry[2] = None

    def run(self, now):
        heap = self.heap
        while heap and heap[0][0] <= now:
            action = heapq.heappop(heap)[2]
            if action is not None:
                action()


class CleanedHeap(Heap):
    """The same, but made anew once more than half of it was stopped, as asyncio does."""

    def stop(self, entry):
        entry[2] = None
        self.stopped += 1
        if self.stopped > 100 and self.stopped * 2 > len(self.heap):
            self.heap = [kept for kept in self.heap if kept[2] is not None]
            heapq.heapify(self.heap)
            self.stopped = 0


class NoSelector:
    """For a loop without input."""

    def select(self, timeout):
        return ()


class LogicalLoop:
    """Makes a loop of asyncio one whose clock is `now`."""

    def __init__(self):
        super().__init__()
        self.now, self._selector = 0, NoSelector()

    def time(self):
        return self.now * SECONDS

    def _process_events(self, events):
        pass

    def start(self, deadline, action):
        return self.call_at(deadline * SECONDS, action)

    def stop(self, call):
        call.cancel()

    def run(self, now):
        self.now = now
        self._run_once()


def of_asyncio():
    return type("Loop", (LogicalLoop, asyncio.BaseEventLoop), {})()


def of_wheel_loop():
    from timers.asyncio import WheelMixin

    base = type("Base", (asyncio.BaseEventLoop,), {"_process_events": lambda self, events: None})
    return type("Loop", (LogicalLoop, WheelMixin, base), {"_process_events": WheelMixin._process_events})()


class Wheel:
    def __init__(self):
        from timers import Timers

        self.timers = Timers()
        self.start, self.stop, self.run = self.timers.start_at, self.timers.stop, self.timers.catch_up


CANDIDATES = {"timers": Wheel, "heapq, marked": Heap, "heapq, cleaned": CleanedHeap, "asyncio": of_asyncio,
              "timers.asyncio": of_wheel_loop}


class Count:
    """An action, which counts how often it is called."""

    def __init__(self):
        self.calls = 0

    def __call__(self):
        self.calls += 1


# Each load is prepared, and returned as a function that is then measured, with how many operations it has. A tick is one turn of
# an event loop, in which some packets come.
PACKETS = 8


def idle(timers, count, pending):
    """Connections, of which one in 16 is busy. One that had no packet for 3,000 ticks is closed."""
    draw, start, stop, run = random.Random(5), timers.start, timers.stop, timers.run
    turns = 2 * pending // PACKETS
    packets = [[draw.randrange(pending // 16) for _ in range(PACKETS)] for _ in range(turns)]
    handles = [None] * pending

    def close(connection):
        handles[connection] = None
        count()

    actions = [functools.partial(close, connection) for connection in range(pending)]
    for connection in range(pending):
        handles[connection] = start(3000 + draw.randrange(3000), actions[connection])

    def work():
        for now in range(turns):
            for connection in packets[now]:
                if handles[connection] is not None:
                    stop(handles[connection])
                handles[connection] = start(now + 3000, actions[connection])
            run(now)

    return work, turns * PACKETS


def resend(timers, count, pending):
    """Packets, each of which is sent again if no answer has come within 200 to 3,000 ticks. 15 of 16 answers come after 150."""
    draw, start, stop, run = random.Random(6), timers.start, timers.stop, timers.run
    rate, turns = max(1, pending // 1000), 4000
    waits = [[200 + draw.randrange(2800) for _ in range(rate)] for _ in range(turns)]
    sent = [[] for _ in range(turns)]

    def work():
        for now in range(turns):
            for wait in waits[now]:
                sent[now].append(start(now + wait, count))
            if now >= 150:
                for number, handle in enumerate(sent[now - 150]):
                    if (now + number) % 16:
                        stop(handle)
                sent[now - 150] = None
            run(now)

    return work, turns * rate


def expire(timers, count, pending):
    """Nothing is stopped. So many are pending all the time."""
    draw, start, run = random.Random(7), timers.start, timers.run
    turns = 2 * pending // PACKETS
    waits = [[1 + draw.randrange(2 * pending // PACKETS) for _ in range(PACKETS)] for _ in range(turns)]
    for _ in range(pending):
        start(1 + draw.randrange(2 * pending // PACKETS), count)

    def work():
        for now in range(turns):
            for wait in waits[now]:
                start(now + wait, count)
            run(now)

    return work, turns * PACKETS


LOADS = {"idle": idle, "resend": resend, "expire": expire}


def run_loads(pending, rounds):
    """The times of each load and candidate, by turns; and what has expired must be the same."""
    times, expired = {}, {}
    for _, (load, prepare), (name, make) in itertools.product(range(rounds), LOADS.items(), CANDIDATES.items()):
        count = Count()
        work, most = prepare(make(), count, pending)
        gc.collect()
        begun = time.process_time_ns()
        work()
        times.setdefault((load, name), []).append((time.process_time_ns() - begun) / most)
        if expired.setdefault(load, count.calls) != count.calls:
            fail(f"{load}: {name} has run {count.calls} actions, another {expired[load]}")
    return times


# Single operations: a program for timeit, that does one for each deadline of a list in random order.
def operations(pending):
    from timers import Timers

    draw = random.Random(8)
    deadlines = [1 + draw.randrange(2 * pending) for _ in range(pending)]
    serials = range(pending)
    entries, timers, loop = [], Timers(), of_asyncio()

    def heap_push():
        heap.clear()
        for deadline, serial in zip(deadlines, serials):
            push(heap, (deadline, serial, None))

    def heap_push_entry():
        heap.clear()
        del entries[:]
        for deadline, serial in zip(deadlines, serials):
            entry = [deadline, serial, None]
            push(heap, entry)
            keep(entry)

    def heap_mark():
        for entry in entries:
            entry[2] = None

    def heap_pop():
        for _ in serials:
            pop(heap)

    def wheel_start():
        for deadline, serial in zip(deadlines, serials):
            start_at(deadline, None)

    def wheel_start_kept():
        del entries[:]
        for deadline, serial in zip(deadlines, serials):
            keep(start_at(deadline, None))

    def wheel_stop():
        for handle in entries:
            stop(handle)

    def wheel_take():
        for _ in serials:
            take(2 * pending)

    def loop_call():
        del entries[:]
        for deadline, serial in zip(deadlines, serials):
            keep(call_at(deadline, print))

    def loop_cancel():
        for call in entries:
            call.cancel()

    heap, push, pop, keep = [], heapq.heappush, heapq.heappop, entries.append
    start_at, stop, take, call_at = timers.start_at, timers.stop, timers.take, loop.call_at
    return timers, {
        "heapq.heappush of a tuple": heap_push, "heapq.heappop": heap_pop,
        "heapq.heappush of a list that is kept": heap_push_entry, "a list is marked": heap_mark,
        "Timers.start_at": wheel_start, "Timers.take": wheel_take,
        "Timers.start_at, the handle is kept": wheel_start_kept, "Timers.stop": wheel_stop,
        "loop.call_at, the call is kept": loop_call, "TimerHandle.cancel": loop_cancel,
    }


def run_operations(pending, rounds):
    times = {}
    for _ in range(rounds):
        timers, work = operations(pending)
        for name, do in work.items():
            if name.startswith("Timers.start"):
                timers.__init__()
            begun = time.process_time_ns()
            do()
            times.setdefault(name, []).append((time.process_time_ns() - begun) / pending)
    return times


def cell(values):
    """The least, and in parentheses the median."""
    ordered = sorted(values)
    return f"{number(ordered[0])} ({number(ordered[len(ordered) // 2])})"


def instructions(name, pending):
    """Of one operation, by callgrind. --one runs it, once or not at all, in a process of its own."""
    counts = []
    for times in "1", "0":
        command = ["valgrind", "--tool=callgrind", "--callgrind-out-file=/dev/null", sys.executable, __file__, "--one", name, times,
                   "--pending", str(pending)]
        run = subprocess.run(command, capture_output=True, text=True, check=False, env={**os.environ, "PYTHONHASHSEED": "0"})
        if run.returncode:
            fail(f"{' '.join(command)}: {run.stderr}")
        counts.append(int(re.search(r"Collected : (\d+)", run.stderr)[1]))
    return (counts[0] - counts[1]) / pending


def run_one(name, times, pending):
    """What comes before the operation in its pair, and the operation so many times."""
    _, work = operations(pending)
    names = list(work)
    before = names[names.index(name) - 1] if names.index(name) % 2 else None
    if before:
        work[before]()
    for _ in range(times):
        work[name]()


def arguments():
    parser = argparse.ArgumentParser(description=__doc__, formatter_class=argparse.RawDescriptionHelpFormatter)
    parser.add_argument("--pending", default="1000,50000", help="how many timers are pending, separated by commas")
    parser.add_argument("--rounds", type=int, default=9)
    parser.add_argument("--count", action="store_true", help="count instructions, too")
    parser.add_argument("--one", nargs=2, metavar=("NAME", "TIMES"), help="run one operation, to be counted")
    return parser.parse_args()


def main():
    options = arguments()
    sys.path[:0] = [BUILT]
    sizes = [int(size) for size in options.pending.split(",")]
    if options.one:
        run_one(options.one[0], int(options.one[1]), sizes[0])
        return
    install = [sys.executable, "-m", "pip", "install", "--quiet", "--no-deps", "--upgrade", "--target", BUILT]
    if subprocess.run([*install, os.path.join(HERE, "..", "bindings", "python")], check=False).returncode:
        fail("the package for Python can't be compiled")
    print(f"# {figures.machine()}, CPython {sys.version.split()[0]}, load average {os.getloadavg()[0]:.1f}")
    rows = []
    for size in sizes:
        times = run_operations(size, options.rounds)
        rows += [["one by one", size, name, cell(values)] for name, values in times.items()]
        times = run_loads(size, options.rounds)
        rows += [[load, size, name, cell(values)] for (load, name), values in times.items()]
    figures.write("python", ["load", "timers", "candidate", "ns"], rows)
    if options.count:
        counted = [[size, name, number(instructions(name, size))] for size in sizes for name in operations(size)[1]]
        figures.write("python_instructions", ["timers", "operation", "instructions"], counted)


if __name__ == "__main__":
    main()
