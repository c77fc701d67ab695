#!/usr/bin/env python3
"""Measures client threads in C over a desk, C++ rings, mutexes and wheels of their own, and writes build/results/desk.csv.

    desk.py [--program PROGRAM] [--ring PROGRAM] [--clients 1,8,64] [--cores 1,2,4] [--busy N] [--repeats N] [--timers N]
            [--limit SECONDS]

The programs are build/desk_threads and build/desk_ring: bench/desk_threads.c says what a client does and what is timed, and
bench/desk_ring.cpp what the owner of the rings does. A row is one way, for one number of clients and of cores: a desk with lines
of 64 (and room for 1,024 words), one with lines of 1,024 (room 4,096), C++ rings of both sizes, a mutex around one wheel, a mutex
and a wheel for each client, the same without an owner, or a wheel of each client alone. They take turns. Rates are medians of
the repeats, with the least and the greatest in parentheses. Percentiles are medians too, and `most` is the most of all repeats.

With --busy N as many other processes as N times the cores never rest on the same cores. The table is then desk_busy.csv.

--limit is for all runs together, 240 seconds by default. What is not reached by then is left out, and a line says how
many rounds that is; a run that is not done after 30 seconds ends the measurement. Status 1: a run failed; 2: wrong arguments.
"""
import argparse
import contextlib
import os
import statistics
import subprocess
import sys
import time

from figures import HERE, fail, spread, write

CORES = sorted(os.sched_getaffinity(0))
SIZES = {"line 64": ["64", "1024"], "line 1,024": ["1024", "4096"]}
# The program of each way, what comes before the numbers of clients and timers, and what comes after them.
WAYS = {f"desk, {name}": ("program", ["desk"], sizes) for name, sizes in SIZES.items()}
WAYS |= {f"C++ ring, {name}": ("ring", [], sizes) for name, sizes in SIZES.items()}
WAYS |= {"mutex": ("program", ["mutex"], ["1"]), "mutex a client": ("program", ["mutex"], ["CLIENTS"])}
WAYS |= {"own, mutex": ("program", ["locked"], []), "own": ("program", ["own"], [])}
# Times as many timers are started in wheels of one's own: or else a run would be over within one turn of the scheduler.
LONGER = 16
TIMES = ["p50", "p999", "p9999", "most"]
FIELDS = ["words", "seconds", *(f"{what}_{time}" for what in ("start", "answer") for time in TIMES)]
SHOWN = ["start_p50", "start_p999", "start_p9999", "start_most", "answer_p50", "answer_p999"]
# A busy process, which ends if the one of the number that it is given is gone: that may be killed.
SPIN = "import os, sys\nwhile os.getppid() == int(sys.argv[1]): sum(range(100_000))"


def stay_on(cores):
    os.sched_setaffinity(0, CORES[:cores])


@contextlib.contextmanager
def others_at_work(many, cores):
    """Meanwhile so many other processes never rest on these cores."""
    spin = [sys.executable, "-c", SPIN, str(os.getpid())]
    others = [subprocess.Popen(spin, preexec_fn=lambda: stay_on(cores)) for _ in range(many)]
    try:
        yield
    finally:
        for other in others:
            other.kill()
            other.wait()


def run(programs, way, clients, timers, cores):
    """The numbers that one run prints, by name. `timers` are of all clients."""
    program, mode, last = WAYS[way]
    last = [str(clients) if part == "CLIENTS" else part for part in last]
    timers = max(1, timers * (LONGER if way.startswith("own") else 1) // clients)
    command = [programs[program], *mode, str(clients), str(timers), *last]
    try:
        done = subprocess.run(command, stdin=subprocess.DEVNULL, capture_output=True, text=True, timeout=30,
                              preexec_fn=lambda: stay_on(cores))
    except subprocess.TimeoutExpired:
        fail(f"{' '.join(command)} on {cores} cores: no end after 30 s")
    if done.returncode:
        fail(f"{' '.join(command)} on {cores} cores: status {done.returncode}, {done.stderr!r}")
    return dict(zip(FIELDS, map(float, done.stdout.split())))


def row_of(results):
    """The cells of one row, of all its repeats, and its rate."""
    rates = [result["words"] / result["seconds"] / 1e6 for result in results]
    times = [(max if name.endswith("most") else statistics.median)(result[name] for result in results) for name in SHOWN]
    return statistics.median(rates), spread(rates), [f"{time:.0f}" for time in times]


def numbers(text):
    return [int(part) for part in text.split(",")]


def main():
    parser = argparse.ArgumentParser(allow_abbrev=False)
    parser.add_argument("--program", default=os.path.join(HERE, "build", "desk_threads"))
    parser.add_argument("--ring", default=os.path.join(HERE, "build", "desk_ring"))
    parser.add_argument("--clients", type=numbers, default=[1, 8, 64])
    parser.add_argument("--cores", type=numbers, default=[1, 2, 4])
    parser.add_argument("--busy", type=int, default=0, help="other processes for each core")
    parser.add_argument("--repeats", type=int, default=3)
    parser.add_argument("--timers", type=int, default=128_000, help="of all clients together")
    parser.add_argument("--limit", type=float, default=240)
    options = parser.parse_args()
    programs = {"program": options.program, "ring": options.ring}
    for program in programs.values():
        if not os.access(program, os.X_OK):
            fail(f"{program} is not built: make -C bench build/desk_threads build/desk_ring TIMERS_C=..", 2)
    began, rows, left_out = time.monotonic(), {}, 0
    keys = [(clients, cores) for clients in options.clients for cores in options.cores if cores <= len(CORES)]
    for _ in range(options.repeats):
        for clients, cores in keys:
            if time.monotonic() - began > options.limit:
                left_out += 1
                continue
            with others_at_work(options.busy * cores, cores):
                for way in WAYS:
                    result = run(programs, way, clients, options.timers, cores)
                    rows.setdefault((clients, cores, way), []).append(result)
    made = []
    for (clients, cores, way), results in rows.items():
        rate, cell, times = row_of(results)
        mutex = row_of(rows[clients, cores, "mutex"])[0]
        made.append([clients, cores, way, cell, "" if way == "mutex" else f"{rate / mutex:.2f}", *times])
    shown = ["start, median", "start, 99.9 %", "start, 99.99 %", "start, most", "answer, median", "answer, 99.9 %"]
    head = ["clients", "cores", "way", "million words a second", "to the mutex", *shown]
    write("desk_busy" if options.busy else "desk", head, made)
    if left_out:
        print(f"{left_out} rounds were left out after {options.limit:.0f} s.", file=sys.stderr)


if __name__ == "__main__":
    main()
