"""The toolchain's program and generated/program.c on the same arguments and scripts: status and both outputs."""
# SPDX-License-Identifier: MIT OR Apache-2.0
import glob
import os
import shutil
import subprocess
import sys
import tempfile

HERE = os.path.dirname(os.path.abspath(__file__))
TOP = os.path.dirname(os.path.dirname(HERE))
sys.path.insert(0, os.path.join(TOP, "tools"))
sys.path.insert(0, os.path.join(TOP, "tools", "fuzz"))
import counts  # noqa: E402
from formats import named  # noqa: E402
from random_scripts import Script  # noqa: E402

SCRIPTS = 2000
LIMIT = 600
PROVED = os.path.join(TOP, "build", "lowered", "program.object")
# How the C is compiled: as the product, and by another compiler.
BUILDS = {"gcc": ["gcc", "-O2"], "clang": ["clang", "-O1"]}


def read(path):
    if not os.path.exists(path):
        return b""
    with open(path, "rb") as file:
        return file.read()


def lines(path):
    return [os.fsdecode(line) for line in read(path).splitlines()]


def examples():
    """(name, arguments, input) of each script of examples/ and each case of the command line."""
    for output in sorted(glob.glob(os.path.join(TOP, "examples", "*.stdout"))):
        script = output[: -len(".stdout")]
        yield os.path.basename(script), lines(script + ".args"), read(script)
    for status in sorted(glob.glob(os.path.join(TOP, "crates", "timer_program", "cases", "*.status"))):
        case = status[: -len(".status")]
        yield os.path.basename(case), list(map(named, lines(case + ".args"))), named(read(case + ".stdin").decode("latin-1")).encode("latin-1")


def random_scripts(arguments):
    """Random scripts, played with the arguments of examples and cases in turn."""
    for seed in range(SCRIPTS):
        yield f"random script {seed}", arguments[seed % len(arguments)], Script(seed).text()


def play(program, arguments, script):
    """Status and outputs. The name of the program is the same for each.

    The script is a file: what one read of a pipe brings depends on when its writer runs, and `--wakeups` shows the reads.
    """
    with tempfile.TemporaryFile() as file:
        file.write(script)
        file.seek(0)
        try:
            ended = subprocess.run(["timers", *arguments], executable=program, stdin=file, capture_output=True, timeout=LIMIT)
        except subprocess.TimeoutExpired:
            return f"no end within {LIMIT} seconds", b"", b""
    return ended.returncode, ended.stdout, ended.stderr


def difference(found, wanted):
    """The first of status and outputs that differs, and where."""
    if found[0] != wanted[0]:
        return f"status {found[0]} in place of {wanted[0]}"
    at = 1 if found[1] != wanted[1] else 2
    pairs = enumerate(zip(found[at].splitlines(), wanted[at].splitlines()), 1)
    first = next((f"line {i}: {one} in place of {other}" for i, (one, other) in pairs if one != other), "one ends before")
    return f"{['', 'standard output', 'standard error'][at]}, {first}"


def compare(name, program, wanted):
    """One check of all runs: `wanted` has (title, arguments, script, what the toolchain's program did)."""
    for title, arguments, script, outcome in wanted:
        found = play(program, arguments, script)
        if found != outcome:
            counts.see(False, f"program.c by {name}", f"{title}, {' '.join(arguments)}: {difference(found, outcome)}")
            return
    written = sum(len(outcome[1]) + len(outcome[2]) for *_, outcome in wanted)
    counts.see(len(wanted) > SCRIPTS, f"program.c by {name} writes the same {written} bytes in {len(wanted)} runs")


def test(folder, build):
    kit = os.path.dirname(subprocess.run(["rt", "doc"], capture_output=True, text=True).stdout.strip())
    archives = [os.path.join(kit, "c", name) for name in ("libos_c.a", "liblibc_c.a")]
    proved = build(folder, "the program that was proved", ["gcc", "-pthread", PROVED, *archives])
    if not proved:
        return
    runs = list(examples())
    runs += random_scripts([arguments for _, arguments, _ in runs if "threads" not in arguments and "-h" not in arguments])
    wanted = [(*run, play(proved, *run[1:])) for run in runs]
    for name, compiler in BUILDS.items():
        if shutil.which(compiler[0]) is None:
            counts.skip(f"program.c by {name}", f"no {name}")
            continue
        program = build(folder, f"program.c by {name}", [*compiler, "-pthread", os.path.join(TOP, "generated", "program.c")])
        if program:
            compare(name, program, wanted)
