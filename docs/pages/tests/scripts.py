"""The scripts whose pages are tested."""
import os
import random
from dataclasses import dataclass, field

from formats import DRAWN, LIMITS

HASHED = ["--scheme", "hashed", "--slots"]
SCHEMES = [["--scheme", name] for name in DRAWN.values() if name not in ("hashed", "hier")]
SCHEMES += [[*HASHED, "8"], [*HASHED, "65536"], []]
BAD = {
    "two_spaces": b"start 0 1 5 7\nstart 0  2 5 7\ntick 1\n",
    "carriage_return": b"start 0 1 5 7\r\n",
    "empty_line": b"tick 1\n\ntick 1\n",
    "no_line_feed": b"tick 1\ntick 1",
    "leading_zero": b"start 0 01 5 7\n",
    "upper_case": b"tick 3\nTICK 3\n",
    "no_tick": b"tick 0\n",
    "too_large": b"start 0 1 %d 7\n" % (LIMITS["LAST"] + 1),
    "too_few": b"start 0 1 5\n",
    "markup": b"start 0 1 5 7\n</script><b><script src=\"model.js\"></script>&amp;\n",
    "not_text": b"start 0 1 5 7\n\xff\x00\x01\n",
}
ROOM = ["--capacity", "1048576"]
REFUSED = (
    b"start 0 1 0 9\nstart 0 1 5 9\nstart 0 3 5 9\nstart 5 1 5 9\nstart 0 2 8639999 9\n"
    b"start 0 3 5 9\nstart 0 4 5 9\nstart 0 5 5 9\n"
    b"stop 0 6 77\nrestart 0 7 77 5 1\nrestart 0 8 1 0 1\ntick 3\nclose\nclose\ntick 1\nstop 0 9 1\n"
)


def example(top, name):
    """A script of examples/ with its options."""
    path = os.path.join(top, "examples", name)
    with open(path, "rb") as file:
        script = file.read()
    options = []
    if os.path.exists(path + ".args"):
        with open(path + ".args", encoding="ascii") as file:
            options = [word for word in file.read().split("\n") if word not in ("play", "show", "")]
    return script, options


def mixed(seed, lines, longest):
    """A script of starts, stops, restarts and ticks."""
    chance = random.Random(seed)
    numbers, started, script = {}, [], []
    for _ in range(lines):
        client = chance.randrange(3)
        kind = chance.random()
        if kind < 0.35:
            script.append(f"tick {1 << chance.randrange(longest)}")
            continue
        numbers[client] = numbers.get(client, 0) + 1
        interval = 1 + chance.randrange(1 << (1 + chance.randrange(longest)))
        known = chance.choice(started) if started and kind > 0.7 else None
        if known is None:
            started.append(client)
            script.append(f"start {client} {numbers[client]} {interval} {chance.randrange(100)}")
        elif kind < 0.85:
            script.append(f"stop {client} {numbers[client]} {1 + chance.randrange(len(started))}")
        else:
            script.append(f"restart {client} {numbers[client]} {1 + chance.randrange(len(started))} {interval} 3")
    return "".join(f"{line}\n" for line in script).encode()


def every_bucket():
    """A timer in each bucket of the hierarchy that can have one, at tick 0."""
    deadlines = [slot << (6 * wheel) for wheel in range(10) for slot in range(1, 64)]
    script = "".join(f"start 0 {n} {deadline} 1\n" for n, deadline in enumerate(deadlines, 1))
    return f"{script}tick 64\n".encode()


def many():
    """A thousand pending timers, and some thousand lines."""
    starts = "".join(f"start 0 {n} {5000 + n * n % 300007} 1\n" for n in range(1, 1001))
    return starts.encode() + b"tick 29\n" * 2000


def crowded(seed, lines):
    """A script with many timers, which expire late."""
    chance = random.Random(seed)
    made, number = [], 0
    for _ in range(lines):
        kind = chance.random()
        if kind < 0.3 and number:
            made.append(f"tick {1 + chance.randrange(60)}")
            continue
        number += 1
        if kind < 0.4 and number > 1:
            made.append(f"restart 0 {number} {1 + chance.randrange(number)} {1 + chance.randrange(50000)} 2")
        elif kind < 0.5 and number > 1:
            made.append(f"stop 0 {number} {1 + chance.randrange(number)}")
        else:
            made.append(f"start 0 {number} {1 + chance.randrange(1 << (1 + chance.randrange(17)))} 1")
    return "".join(f"{line}\n" for line in made).encode()


@dataclass
class Case:
    name: str
    script: bytes
    options: list = field(default_factory=list)  # of show
    own: list = field(default_factory=list)  # of wheels_page
    serials: list = field(default_factory=list)  # to follow


def cases(top):
    files = os.listdir(os.path.join(top, "examples"))
    names = sorted(name.removesuffix(".stdout") for name in files if name.endswith(".stdout"))
    made = [Case(name, *example(top, name), [], ["1", "2"]) for name in names]
    serials = [str(serial) for serial in range(1, 8)]
    for at, options in enumerate(SCHEMES):
        made.append(Case(f"mixed_{at}", mixed(at + 1, 40, 9), options, [], serials))
        made.append(Case(f"whole_{at}", mixed(at + 1, 40, 9), options, ["--whole-lines"]))
    made.append(Case("far", mixed(9, 30, 16), ["--first-tick", "1152921504599999999"], [], serials))
    made.append(Case("refused", REFUSED, ["--scheme", "clock", "--clients", "5", "--capacity", "2"]))
    made.append(Case("empty", b""))
    return made + [Case(name, script) for name, script in BAD.items()]


def crowded_cases():
    """Scripts whose whole `show` is more than a page takes, on each scheme."""
    return [Case(f"crowded_{at}", crowded(at, 2600), [*options, *ROOM]) for at, options in enumerate(SCHEMES)]
