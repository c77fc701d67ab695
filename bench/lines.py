#!/usr/bin/env python3
"""Measures a desk's calls in one thread, and its flushes: ns of a word, medians of the repeats with the least and the greatest.

    lines.py [--repeats N]

build/desk_calls says what is timed. `desk_ref` is a desk in C++, `desk_seq` the same over rings with sequentially consistent
stores, and `no desk` a `struct timers` alone. They take turns on one core, and each repeat gives one ratio to each.

Status 1: a run failed, or a word was wrong; 2: wrong arguments, or a program is not built.
"""
import argparse
import os
import subprocess

import figures
from figures import fail, spread

CLIENTS, REQUESTS = (1, 8, 64), 20 * 65536
WORDS, OUTBOXES, FLUSHED = (1, 8, 16, 64), 64, 20_000_000
# What a row measures and its peers: a program and the facility that it takes.
DESK = ("desk_calls", "desk")
PEERS = {"desk_ref": ("desk_calls", "ref"), "desk_seq": ("desk_calls_seq", "ref"), "no desk": ("desk_calls", "timers")}
CORE = min(os.sched_getaffinity(0))


def run(program, *words):
    """ns of a word."""
    path = os.path.join(figures.HERE, "build", program)
    if not os.access(path, os.X_OK):
        fail(f"{path} is not built: make -C bench build/{program} TIMERS_C=..", 2)
    command = ["timeout", "300", "taskset", "-c", str(CORE), path, *map(str, words)]
    done = subprocess.run(command, stdin=subprocess.DEVNULL, capture_output=True, text=True, check=False)
    if done.returncode:
        fail(f"{' '.join(command)}: status {done.returncode}, {done.stderr!r}")
    return float(done.stdout)


def row(title, repeats, peers, prefix, *numbers):
    times = {name: [] for name in ("desk", *peers)}
    for _ in range(repeats):
        for name, found in times.items():
            program, facility = PEERS.get(name, DESK)
            found.append(run(program, prefix + facility, *numbers))
    mine = times["desk"]
    cells = [title, spread(mine)]
    for name in PEERS:
        peer = times.get(name)
        cells += [spread(peer), spread([m / p for m, p in zip(mine, peer)])] if peer else ["", ""]
    return cells


def several(count, noun):
    return f"{count} {noun}{'' if count == 1 else 's'}"


def main():
    parser = argparse.ArgumentParser()
    parser.add_argument("--repeats", type=int, default=5)
    repeats = parser.parse_args().repeats
    rows = [row(f"desk, {several(n, 'client')}", repeats, PEERS, "", n, REQUESTS // n) for n in CLIENTS]
    rows += [row(f"flush, {several(n, 'word')}", repeats, ["desk_ref", "desk_seq"], "flush-", n, FLUSHED // OUTBOXES // n) for n in WORDS]
    figures.write("lines", ["row", "timers", *(head for name in PEERS for head in (name, f"to {name}"))], rows)


main()
