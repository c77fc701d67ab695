#!/usr/bin/env python3
"""Times `timers` as a process beside C++ programs that do the same: hyperfine, elapsed time in ms.

    programs.py PROGRAM [--runs N] [--only play,jumps,serve,threads,counts]

The peers are build/play_tuned, threads_ref and threads_seq (ring_ref.hpp says how these two differ); of `serve`, but
for its last row, `timers play`. A script comes from a file, and the output has to be the same bytes as the peer's. The
last row of `serve` is 20,000 requests down a pipe, each after the answer to the one before. `counts` times nothing: it
has the instructions of the whole process for each line, by callgrind.

Status 1: an output differs, or a program failed; 2: hyperfine, valgrind or a program is not there.
"""
import argparse
import json
import os
import re
import shlex
import shutil
import statistics
import subprocess
import tempfile
import time

import figures
from figures import fail, number, spread

BUILD = os.path.join(figures.HERE, "build")
OPTIONS = ["--capacity", "1048576"]
TUNED, *THREADS = (os.path.join(BUILD, name) for name in ("play_tuned", "threads_ref", "threads_seq"))
REQUESTS = 20_000
MASK = 2**64 - 1


def splitmix(seed):
    while True:
        seed = (seed + 0x9E3779B97F4A7C15) & MASK
        z = seed
        z = ((z ^ z >> 30) * 0xBF58476D1CE4E5B9) & MASK
        z = ((z ^ z >> 27) * 0x94D049BB133111EB) & MASK
        yield z ^ z >> 31


def starts():
    """Many starts, then all expire."""
    r, n = splitmix(1), 0
    while True:
        n += 1
        yield f"start 0 {n} {1 + next(r) % 900} 7\n"
        if n % 50 == 0:
            yield "tick 1\n"


def mixed():
    """Starts and stops of 16 clients, most timers stopped."""
    r, number_of, serial, alive = splitmix(2), [0] * 16, 0, []
    while True:
        client = next(r) % 16
        if alive and next(r) % 2:
            client, stopped = alive.pop(next(r) % len(alive))
            number_of[client] += 1
            yield f"stop {client} {number_of[client]} {stopped}\n"
        else:
            serial += 1
            number_of[client] += 1
            alive.append((client, serial))
            yield f"start {client} {number_of[client]} {5000 + next(r) % 5000} {serial}\n"
        if next(r) % 32 == 0:
            yield "tick 1\n"


def closes():
    yield "tick 1\n" * 4
    while True:
        yield "close\n"


def jumps(most):
    """25,000 jumps of a million ticks, before each of them a start of up to so many ticks."""
    r = splitmix(3)
    return "".join(f"start 0 {n} {1 + next(r) % most} 1\ntick 1000000\n" for n in range(1, 25_001)).encode()


def mebibyte(parts):
    text, size = [], 0
    for part in parts:
        size += len(part)
        if size > 1_048_576:
            return "".join(text).encode()
        text.append(part)


SCRIPTS = {
    "1 MiB of starts that expire": mebibyte(starts()),
    "1 MiB of starts and stops": mebibyte(mixed()),
    "1 MiB of closes": mebibyte(closes()),
}
JUMPS = {
    "25,000 jumps of a million ticks, one timer between": jumps(1_000_000),
    "25,000 jumps of a million ticks, some 50 timers pending": jumps(100_000_000),
}
SCHEMES = {"hierarchy": ["hier"], "hashed, 256 slots": ["hashed", "--slots", "256"], "plain": ["plain"]}


def output(command, script):
    done = subprocess.run(command, input=script, capture_output=True, check=False, timeout=120)
    if done.returncode:
        fail(f"{shlex.join(command)}: status {done.returncode}, {done.stderr[:200]!r}")
    return done.stdout


def timed(commands, script, runs):
    """The times of each command in ms. Nothing is timed if an output differs from the first one's."""
    wanted, *others = (output(command, script) for command in commands)
    if any(other != wanted for other in others):
        fail(f"outputs differ: {[shlex.join(command) for command in commands]}")
    with tempfile.TemporaryDirectory() as folder:
        given, result = os.path.join(folder, "script"), os.path.join(folder, "times.json")
        with open(given, "wb") as file:
            file.write(script)
        options = ["--shell=sh", "--style=none", "--warmup=1", f"--runs={runs}", f"--export-json={result}"]
        words = [f"exec {shlex.join(command)} < {shlex.quote(given)} > {os.devnull}" for command in commands]
        subprocess.run(["hyperfine", *options, *words], check=True, stdout=subprocess.DEVNULL, stderr=subprocess.DEVNULL)
        with open(result, encoding="utf-8") as file:
            return [[1e3 * seconds for seconds in of["times"]] for of in json.load(file)["results"]]


def ratios(times):
    """Of the first one's median to each other one's."""
    mine, *others = map(statistics.median, times)
    return [number(mine / other) for other in others]


def play(program, runs, schemes, scripts):
    for scheme, words in schemes.items():
        for title, script in scripts.items():
            times = timed([[program, "play", "--scheme", *words, *OPTIONS], [TUNED, *OPTIONS]], script, runs)
            yield [title, f"play, {scheme}", *map(spread, times), *ratios(times)]


def one_by_one(command, lines):
    """Writes each line when the answer to the one before has come. The elapsed time in ms, and the text."""
    begun = time.perf_counter()
    with subprocess.Popen(command, stdin=subprocess.PIPE, stdout=subprocess.PIPE) as served:
        to, back, text = served.stdin.fileno(), served.stdout.fileno(), []
        for line in lines:
            os.write(to, line)
            answer = os.read(back, 4096)
            while not answer.endswith(b"\n"):
                answer += os.read(back, 4096)
            text.append(answer)
        served.stdin.close()
        text.append(served.stdout.read())
    return 1e3 * (time.perf_counter() - begun), b"".join(text)


def serve(program, runs):
    for title, script in SCRIPTS.items():
        times = timed([[program, word, *OPTIONS] for word in ("serve", "play")], script, runs)
        yield [title, *map(spread, times), "timers play", *ratios(times)]
    lines = (line.encode() for line in mixed() if not line.startswith("tick"))
    given = [next(lines) for _ in range(REQUESTS)]
    commands, times = [[program, "serve", *OPTIONS], [TUNED, "--line", *OPTIONS]], ([], [])
    for _ in range(runs):
        ended = [one_by_one(command, given) for command in commands]
        if ended[0][1] != ended[1][1]:
            fail("one by one: outputs differ")
        for of, (elapsed, _) in zip(times, ended):
            of.append(elapsed)
    yield [f"{REQUESTS:,} starts and stops down a pipe, one by one", *map(spread, times), "play_tuned --line", *ratios(times)]


def instructions(command, script):
    """Of the whole process, from its start to its end."""
    callgrind = ["valgrind", "--tool=callgrind", "--callgrind-out-file=/dev/null"]
    done = subprocess.run([*callgrind, *command], input=script, capture_output=True, check=False)
    collected = re.search(rb"Collected : (\d+)", done.stderr)
    if done.returncode or not collected:
        fail(f"{shlex.join(command)}: status {done.returncode}, {done.stderr[:200]!r}", 2)
    return int(collected[1])


def counts(program):
    for title, script in SCRIPTS.items():
        lines = script.count(b"\n")
        ways = (["play"], ["serve"], ["serve", "--wakeups"])
        play, *served = (instructions([program, *words, *OPTIONS], script) / lines for words in ways)
        yield [title, lines, number(play), *(cell for one in served for cell in (number(one), number(one / play)))]


def threads(program, runs):
    available = sorted(os.sched_getaffinity(0))
    for count in (1, 2, 4):
        if count <= len(available):
            held = ["taskset", "-c", ",".join(map(str, available[:count]))]
            peers = [[peer, "4", "10000"] for peer in THREADS]
            words = [[program, "threads", "--clients", "4", "--timers", "10000"], *peers]
            ours, *others = timed([[*held, *command] for command in words], b"", runs)
            yield [count, spread(ours), *(cell for times in others for cell in (spread(times), *ratios([ours, times])))]


def main():
    parser = argparse.ArgumentParser()
    parser.add_argument("program")
    parser.add_argument("--runs", type=int, default=15)
    parser.add_argument("--only", default="play,jumps,serve,threads")
    options = parser.parse_args()
    program, parts = os.path.abspath(options.program), options.only.split(",")
    for needed in (program, *(["valgrind"] if parts == ["counts"] else ["hyperfine", TUNED, *THREADS])):
        if not shutil.which(needed):
            fail(f"{needed} is not there", 2)
    rows = []
    if "play" in parts:
        rows += play(program, options.runs, {"hierarchy": ["hier"]}, SCRIPTS)
    if "jumps" in parts:
        rows += play(program, options.runs, SCHEMES, JUMPS)
    if rows:
        figures.write("programs", ["script", "command", "timers", "play_tuned", "to play_tuned"], rows)
    if "serve" in parts:
        figures.write("serve", ["stream", "serve", "peer", "which peer", "ratio"], serve(program, options.runs))
    if "counts" in parts:
        figures.write("counts", ["script", "lines", "play", "serve", "to play", "serve --wakeups", "to play"], counts(program))
    if "threads" in parts:
        head = ["cores", "timers", "threads_ref", "to threads_ref", "threads_seq", "to threads_seq"]
        figures.write("threads", head, threads(program, options.runs))


if __name__ == "__main__":
    main()
