#!/usr/bin/env python3
"""Measures the tables of results/, on a machine that does nothing else: some 15 minutes in all.

    make timers lib && make -C bench && python3 bench/measure.py [PART..]      all parts, or some of them

results/settings.csv gets the machine, the date, and how many cores other processes and the host's neighbours took.
Status 1: a part failed. Status 2: wrong arguments, or nothing is built.
"""
import datetime
import os
import resource
import subprocess
import sys
import time

import figures

TOP = os.path.join(figures.HERE, "..")
TIMERS = os.path.join(TOP, "timers")
SCRIPTS = {
    "programs": ["programs.py", TIMERS, "--runs", "120"],
    "counts": ["programs.py", TIMERS, "--only", "counts"],
    "lines": ["lines.py"],
    "tail": ["runs.py", "tail", "--repeats", "3"],
    "next": ["runs.py", "next", "--repeats", "3"],
    "desk": ["desk.py", "--repeats", "7"],
    "desk_busy": ["desk.py", "--busy", "1", "--repeats", "5", "--timers", "32000", "--limit", "600"],
    "peers": ["peers.py"],
}


def run(part):
    script, *options = SCRIPTS[part]
    return subprocess.run([sys.executable, os.path.join(figures.HERE, script), *options], check=False).returncode == 0


def times():
    """Seconds so far: by the clock, of all processors at work, of this program's children, taken by the host."""
    with open("/proc/stat", encoding="utf-8") as stat:
        ticks = [int(word) / os.sysconf("SC_CLK_TCK") for word in stat.readline().split()[1:9]]
    user, nice, system, _, _, irq, softirq, steal = ticks
    own = resource.getrusage(resource.RUSAGE_CHILDREN)
    return time.time(), user + nice + system + irq + softirq, own.ru_utime + own.ru_stime, steal


def main():
    if set(sys.argv[1:]) - set(SCRIPTS):
        figures.fail(__doc__, 2)
    parts = sys.argv[1:] or list(SCRIPTS)
    if not os.path.isdir(os.path.join(figures.HERE, "build")):
        figures.fail("measure.py: nothing is built: make -C bench", 2)
    os.environ["RESULTS"] = figures.FOLDER = figures.KEPT
    settings = {row["part"]: row for row in figures.read("settings")}
    is_well = True
    for part in parts:
        before = times()
        is_well = run(part) and is_well
        seconds, busy, own, steal = (after - first for after, first in zip(times(), before))
        settings[part] = {
            "part": part,
            "date": datetime.date.today().isoformat(),
            "machine": figures.machine(),
            "other processes' cores": f"{max(busy - own, 0) / seconds:.1f}",
            "the host's": f"{steal / seconds:.1f}",
        }
    head = list(next(iter(settings.values())))
    figures.write("settings", head, [row.values() for row in settings.values()])
    sys.exit(not is_well)


if __name__ == "__main__":
    main()
