#!/usr/bin/env python3
"""Runs build/tail or build/next over facilities, in turns: ns, medians of the repeats with the least and the greatest.

    runs.py tail [--repeats N] [--facilities A,B] [--sizes 100000,1000000] [--count N]
    runs.py next [--repeats N] [--facilities A,B] [--sizes 10000,100000]

--sizes are numbers of pending timers. --count is at most how many ticks of each load of tail are timed. Facilities that the program doesn't have are left out, and so are loads that a facility can't do. Status 1: a
run failed, or there is nothing to run. Status 2: wrong arguments, or no program.
"""
import argparse
import os
import subprocess

import figures
from figures import fail, spread

TAIL = "timers-c,timers-c-smooth,array-heap,ref-hash-64k,ref-hier,libuv,tokio-wheel"
FACILITIES = {"tail": TAIL, "next": "timers_wakeup,libuv"}
SIZES = {"tail": "100000,1000000", "next": "10000,100000,1000000"}
TURNS = ["same", "minute", "minutes", "kept", "expiry", "short", "first", "oldest"]
RANKS = ["p50", "p99.9", "p99.99", "longest"]
# The loads of tail. Of some a number of ticks is timed, of `moves` all ticks, and of the others starts.
LOADS = {"spread": 400_000, "shuffled": 400_000, "keep-alive": 70_000, "moves": 0, "moves-shuffled": 0,
         "growth": 0, "reserved": 0, "room": 0}


def measures(program, facility, size, what):
    """The figures of one run by name; none where the program lacks the facility."""
    command = [os.path.join(figures.HERE, "build", program), facility, str(size), *str(what).split()]
    run = subprocess.run(command, capture_output=True, text=True, check=False)
    if run.returncode not in (0, 2):
        fail(f"{' '.join(command)}: status {run.returncode} {run.stderr.strip()}")
    lines = run.stdout.splitlines() if run.returncode == 0 else []
    return {name: float(value) for name, value in (line.rsplit(" ", 1) for line in lines)}


def turns(options, whats):
    """Each run's figures, one list a facility, size, run and measure. The facilities take turns."""
    found = {}
    for _ in range(options.repeats):
        for size in options.sizes:
            for facility in options.facilities.split(","):
                for what in whats:
                    for name, value in measures(options.program, facility, size, what).items():
                        found.setdefault((facility, size, what, name), []).append(value)
    return {key: spread(values) for key, values in found.items()} or fail("no facility to run")


def tail(options, facilities):
    whats = {load: f"{load} {min(ticks, options.count or ticks)}" if ticks else load for load, ticks in LOADS.items()}
    found = turns(options, list(whats.values()))
    rows = [
        [load, size, facility, *(found.get((facility, size, what, rank), "") for rank in RANKS)]
        for load, what in whats.items()
        for size in options.sizes
        for facility in facilities
    ]
    figures.write("tail", ["load", "timers", "facility", *RANKS], [row for row in rows if any(row[3:])])


def next_deadlines(options, facilities):
    found = turns(options, TURNS)
    rows = [
        [turn, facility, *(found.get((facility, size, turn, "turn"), "") for size in options.sizes)]
        for turn in TURNS
        for facility in facilities
    ]
    figures.write("next", ["turn", "facility", *options.sizes], [row for row in rows if any(row[2:])])


def main():
    parser = argparse.ArgumentParser()
    parser.add_argument("program", choices=list(SIZES))
    parser.add_argument("--repeats", type=int, default=5)
    parser.add_argument("--facilities")
    parser.add_argument("--sizes")
    parser.add_argument("--count", type=int)
    options = parser.parse_args()
    if not os.path.exists(os.path.join(figures.HERE, "build", options.program)):
        fail(f"runs.py: no build/{options.program}: make -C bench", 2)
    options.sizes = [int(size) for size in (options.sizes or SIZES[options.program]).split(",")]
    options.facilities = options.facilities or FACILITIES[options.program]
    table = {"tail": tail, "next": next_deadlines}[options.program]
    table(options, options.facilities.split(","))


main()
