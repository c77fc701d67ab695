#!/usr/bin/env python3
"""Lines a second of `timers serve --journal` beside what else keeps timers on a disk, and how long a recovery takes.

    journal.py PROGRAM [--seconds 2] [--repeats 3] [--timers 1000000] [--folder FOLDER] [--beanstalkd FILE]

A client sends lines in batches, and waits for the answers to each. Half of the lines start a timer (put a delayed job, insert
a row), half stop one. Each batch is on the disk before it is answered, but for `timers serve` and `no sync`. `one sync` is the
least that a file may take. SQLite is in this process, with a transaction a batch and synchronous=FULL. A recovery lasts from the
start of a process to its line `recovered`."""
import argparse
import contextlib
import os
import shutil
import socket
import sqlite3
import subprocess
import tempfile
import time

from figures import HERE, fail, machine, spread, write

BATCHES = (1, 100, 1000)
SERVE = ["serve", "--clients", "1", "--capacity", "1048576"]


def answers(read, count):
    """What is read, once it has so many lines."""
    text = b""
    while text.count(b"\n") < count:
        text += (piece := read(1 << 20))
        if not piece:
            fail(f"too few answers: {text[-200:]}")
    return text


@contextlib.contextmanager
def served(command):
    with subprocess.Popen(command, stdin=subprocess.PIPE, stdout=subprocess.PIPE, bufsize=0) as process:
        yield process, lambda most: os.read(process.stdout.fileno(), most)
        process.stdin.close()
        process.stdout.read()


@contextlib.contextmanager
def timers(program, folder, kept):
    with served([program, *SERVE, *(["--journal", f"{folder}/journal"] if kept else [])]) as (process, read):
        if kept:
            answers(read, 1)

        def plays(numbers):
            text = b"".join(b"start 0 %d 1000 7\n" % n if n % 2 else b"stop 0 %d %d\n" % (n, n // 2) for n in numbers)
            if process.stdin.write(text) < len(text) or b"refused" in answers(read, len(numbers)):
                fail("a line was refused")

        yield plays


@contextlib.contextmanager
def beanstalkd(program, folder, _):
    port = 20_000 + os.getpid() % 20_000
    with subprocess.Popen([program, "-b", folder, "-f0", "-l", "127.0.0.1", "-p", str(port)]) as process:
        time.sleep(0.5)
        peer = socket.create_connection(("127.0.0.1", port))

        def plays(numbers):
            peer.sendall(b"".join(b"put 0 1000 9 1\r\n7\r\n" if n % 2 else b"delete %d\r\n" % (n // 2) for n in numbers))
            said = answers(peer.recv, len(numbers))
            if said.count(b"INSERTED") + said.count(b"DELETED") != len(numbers):
                fail(f"beanstalkd says {said[-200:]}")

        yield plays
        peer.close()
        process.terminate()


@contextlib.contextmanager
def sqlite(mode, folder, _):
    base = sqlite3.connect(f"{folder}/base", isolation_level=None)
    base.executescript(f"PRAGMA journal_mode={mode}; PRAGMA synchronous=FULL; CREATE TABLE t (serial INTEGER PRIMARY KEY, tick)")

    def plays(numbers):
        base.execute("BEGIN")
        for n in numbers:
            base.execute("INSERT INTO t VALUES (?, 1000)" if n % 2 else "DELETE FROM t WHERE serial = ?", (n // 2 + n % 2,))
        base.execute("COMMIT")

    yield plays
    base.close()


@contextlib.contextmanager
def appended(_, folder, synced):
    with open(f"{folder}/file", "ab", buffering=0) as file:
        yield lambda numbers: (file.write(b"".join(b"start 0 %d 1000 7\n" % n for n in numbers)), synced and os.fdatasync(file))


def rate(kind, folder, batch, seconds):
    """Lines a second."""
    opens, of, kept = kind
    with tempfile.TemporaryDirectory(dir=folder) as own, opens(of, own, kept) as plays:
        plays(range(1, 3))
        first, begun = 3, time.perf_counter()
        while (elapsed := time.perf_counter() - begun) < seconds:
            plays(range(first, first + batch))
            first += batch
    return (first - 3) / elapsed


def recovery(command):
    """Seconds until it says what it has recovered, and its peak memory in MB."""
    begun = time.perf_counter()
    with served(command) as (process, read):
        answers(read, 1)
        elapsed = time.perf_counter() - begun
        with open(f"/proc/{process.pid}/status", encoding="ascii") as status:
            return elapsed, next(int(line.split()[1]) / 1024 for line in status if line.startswith("VmHWM"))


def recoveries(given):
    lines = "".join(f"start 0 {n} {1000 + n % 900_000} 7\n" for n in range(1, given.timers + 1)).encode()
    for title, own in ("lines", []), ("a snapshot", ["--snapshot", str(given.timers)]):
        with tempfile.TemporaryDirectory(dir=given.folder) as at:
            command = [given.program, *SERVE, "--journal", f"{at}/journal"]
            subprocess.run([*command, *own], input=lines, stdout=subprocess.DEVNULL, check=True)
            size = os.path.getsize(f"{at}/journal") / 1e6
            found = [recovery(command) for _ in range(given.repeats)]
        yield [f"{given.timers:,} timers from {title}, {size:.0f} MB", *(spread(of) for of in zip(*found))]


def main():
    parser = argparse.ArgumentParser()
    parser.add_argument("program", type=os.path.abspath)
    for name, default in ("seconds", 2.0), ("repeats", 3), ("timers", 1_000_000), ("folder", HERE):
        parser.add_argument(f"--{name}", default=default, type=type(default))
    parser.add_argument("--beanstalkd", default=shutil.which("beanstalkd"))
    given = parser.parse_args()
    kinds = {"timers serve --journal": (timers, given.program, True), "timers serve": (timers, given.program, False),
             "beanstalkd -f0": (beanstalkd, given.beanstalkd, True), "SQLite": (sqlite, "DELETE", True),
             "SQLite, WAL": (sqlite, "WAL", True),
             "a file, one sync": (appended, "", True), "a file, no sync": (appended, "", False)}
    rates = {name: {batch: [] for batch in BATCHES} for name, kind in kinds.items() if kind[1] is not None}
    for name, batch in [(name, batch) for _ in range(given.repeats) for name in rates for batch in BATCHES]:
        rates[name][batch].append(rate(kinds[name], given.folder, batch, given.seconds))
    print(f"{machine()}; load {os.getloadavg()[0]:.1f}")
    table = [[name, *map(spread, found.values())] for name, found in rates.items()]
    write("journal", ["lines a second, by batches", *BATCHES], table)
    write("recovery", ["recovery", "seconds", "MB at most"], recoveries(given))


if __name__ == "__main__":
    main()
