#!/usr/bin/env python3
"""Measures build/peers_* and build/counted_*: timers that a user would pick, under three loads of an event loop.

    peers.py [--sizes 1000,10000,100000] [--repeats N] [--peers SET_AT,HEAP] [--only count|time|miss]

Two tables, of what a set, a stop or an expiry takes, all calls of the turns included: instructions, by callgrind, and
processor time in ns, the median with the least and the greatest of the repeats. With `miss` a third one alone: lines that are
not in a last cache of 1 MB, by cachegrind, in which the owners' own lines count. Peers that this machine lacks are left out.
Status 1: a run failed, or two peers disagree on how many timers expired, or on an order that both promise. Status 2: wrong
arguments, or no program.
"""
import argparse
import os
import re
import subprocess

import figures
from figures import HERE, fail, spread

PEERS = {
    "SET_AT": "timers_set_at, timers_wakeup",
    "SET_AT_LTO": "the same, LTO",
    "LOOP_CANCEL": "timers_loop.h, cancels",
    "LOOP_PAUSE": "timers_loop.h, pauses",
    "LOOP_PAUSE_LTO": "the same, pauses, LTO",
    "HEAP": "array heap, no order",
    "HEAP_ORDERED": "array heap, ordered",
    "HEAP_LAZY": "array heap, lazy",
    "WHEEL": "intrusive wheel",
    "WHEEL_LAZY": "intrusive wheel, lazy",
    "NO_CASCADES": "wheel without cascades",
    "TREE": "red-black tree",
    "QUEUE": "std::priority_queue",
    "LIBUV": "libuv",
    "LIBEVENT": "libevent",
    "LIBEVENT_COMMON": "libevent, common time-out",
}
# Those of one tick come in the order in which they were set. In `resend` events that were pushed back do not.
ORDERED = ["SET_AT", "SET_AT_LTO", "HEAP_ORDERED", "WHEEL", "TREE", "LIBUV"]
# Those far away come out late. So there are fewer.
LATE = ["NO_CASCADES"]
# Ticks by the number of timers, and sets a tick.
LOADS = {"idle": (lambda n: 7000, 200), "resend": (lambda n: 3000, 200), "expire": (lambda n: max(3000, n // 16), 64)}
CALLS = ["set", "stop", "take", "next"]


def command(program, peer, load, size, is_empty=False):
    ticks, sets = LOADS[load]
    return [os.path.join(HERE, "build", f"{program}_{peer}"), load, str(size), str(0 if is_empty else ticks(size)), str(sets)]


def output(run):
    """Of a run: ns, the sets, stops and takes, and the order."""
    if run.returncode:
        fail(f"{' '.join(run.args)}: status {run.returncode} {run.stderr.strip()}")
    words = run.stdout.split()
    return float(words[0]), [int(word) for word in words[1:4]], words[5]


def collected(peer, load, size, is_empty):
    """Instructions within the calls, and what the run printed: see output."""
    callgrind = ["valgrind", "--tool=callgrind", "--callgrind-out-file=/dev/null", *(f"--toggle-collect={call}" for call in CALLS)]
    run = subprocess.run([*callgrind, *command("counted", peer, load, size, is_empty)], capture_output=True, text=True, check=False)
    return int(re.search(r"Collected : (\d+)", run.stderr)[1]), output(run)


def count(peers, load, size):
    """For an operation: what a run without a turn takes is the start of all timers. Only idle time-outs are of one length."""
    peers = {peer: None if peer == "LIBEVENT_COMMON" and load != "idle" else collected(peer, load, size, False) for peer in peers}
    compare(load, size, {peer: found[1] for peer, found in peers.items() if found})
    return [
        f"{(found[0] - collected(peer, load, size, True)[0]) / sum(found[1][1]):.0f}" if found else ""
        for peer, found in peers.items()
    ]


def missed(peer, load, size, is_empty):
    """Misses of the last cache, over a shorter run, and the operations."""
    program, *words = command("peers", peer, load, size, is_empty)
    words[2] = str(min(int(words[2]), max(3000, size // 32)))
    caches = [f"--I1={1 << 15},8,64", f"--D1={1 << 15},8,64", f"--LL={1 << 20},16,64"]  # bytes, ways, bytes of a line
    cachegrind = ["valgrind", "--tool=cachegrind", "--cache-sim=yes", "--cachegrind-out-file=/dev/null", *caches]
    run = subprocess.run([*cachegrind, program, *words], capture_output=True, text=True, check=False)
    return int(re.search(r"LLd misses: +([\d,]+)", run.stderr)[1].replace(",", "")), sum(output(run)[1])


def miss(peers, load, size):
    runs = [[missed(peer, load, size, is_empty) for is_empty in (False, True)] for peer in peers]
    return [f"{(misses - at_start) / operations:.2f}" for (misses, operations), (at_start, _) in runs]


def compare(load, size, runs):
    """Each peer that is never late has the same operations, and those that keep an order the same."""
    for what, peers in ((1, [peer for peer in runs if peer not in LATE]), (2, [peer for peer in runs if peer in ORDERED])):
        if len({str(runs[peer][what]) for peer in peers}) > 1:
            fail(f"{load}, {size} timers: the peers disagree: {[(peer, runs[peer][what]) for peer in peers]}")


def time(peers, load, size, repeats):
    """The peers take turns."""
    found = {peer: [] for peer in peers}
    for _ in range(repeats):
        runs = {peer: output(subprocess.run(command("peers", peer, load, size), capture_output=True, text=True, check=False)) for peer in peers}
        compare(load, size, runs)
        for peer, run in runs.items():
            found[peer].append(run[0])
    return [spread(found[peer]) for peer in peers]


def main():
    parser = argparse.ArgumentParser()
    parser.add_argument("--sizes", default="1000,10000,100000")
    parser.add_argument("--repeats", type=int, default=5)
    parser.add_argument("--peers", default=",".join(PEERS))
    parser.add_argument("--only", choices=["count", "time", "miss"])
    options = parser.parse_args()
    peers = [peer for peer in options.peers.split(",") if os.path.exists(os.path.join(HERE, "build", f"peers_{peer}"))]
    if not peers:
        fail("peers.py: no build/peers_*: run make peers", 2)
    rows = [(load, int(size)) for load in LOADS for size in options.sizes.split(",")]
    head = ["load", "timers", *(PEERS[peer] for peer in peers)]
    if options.only == "miss":
        figures.write("peers_misses", head, [[load, size, *miss(peers, load, size)] for load, size in rows])
    if options.only in ("count", None):
        figures.write("peers", head, [[load, size, *count(peers, load, size)] for load, size in rows])
    if options.only in ("time", None):
        figures.write("peers_ns", head, [[load, size, *time(peers, load, size, options.repeats)] for load, size in rows])


main()
