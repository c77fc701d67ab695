#!/usr/bin/env python3
"""random_scripts.py COMPARE PROGRAM FOLDER SECONDS [SEED]   random scripts against the model
random_scripts.py                                        writes a dictionary for afl-fuzz

Most lines are such as a client would send, so that timers start, move, expire and are restarted; one in ten
is wrong in some way. One script in four has lines of a stream, too. Each script goes to COMPARE, which plays it with every scheme. A script at which they
differ is kept in FOLDER, and the run ends with status 1. The last line is 'N scripts, M lines'.
"""
import math
import os
import random
import subprocess
import sys
import time

sys.path.insert(0, os.path.join(os.path.dirname(os.path.abspath(__file__)), ".."))
sys.dont_write_bytecode = True
from formats import FIELDS, LIMITS, TABLES, WORDS, said  # noqa: E402

LAST, TICKS, MOST = (LIMITS[name] for name in ("LAST", "MAX_TICKS", "MAX_CLIENTS"))
# Numbers at which something changes: the ticks of a slot of wheels 1 to 3 of each table, and limits.
SLOTS = {math.prod(table["radices"][:wheel]) for table in TABLES.values() for wheel in (1, 2, 3)}
EDGES = [0, 1, 2, *sorted({slot + by for slot in SLOTS for by in (-1, 0, 1)}), TICKS, TICKS + 1, LAST - 1]
EDGES += [limit for name, limit in LIMITS.items() if name.startswith("LAST")]
# The words of requests, with how often each is made, and of other lines. After a close little happens.
REQUESTS = {word: 0.23 if "serial" in FIELDS[word] else 0.55 for word in WORDS["script"] if "client" in FIELDS[word]}
CLOSE = "close"
OTHERS = [word for word in WORDS["script"] if word not in (*REQUESTS, CLOSE)]


class Client:
    """What a client of the script believes: its next number, and the serials that may be its own."""

    def __init__(self, chance):
        self.chance = chance
        self.number = 1
        self.serials = []


class Script:
    def __init__(self, seed):
        self.chance = random.Random(seed)
        self.clients = [Client(self.chance) for _ in range(self.chance.choice([1, 2, 2, 5, MOST]))]
        self.serial = 1
        self.now = 0
        self.is_stream = self.chance.random() < 0.25
        self.scale = self.chance.choice([4, 64, 300, 5000, 300000])
        self.lines = []

    def interval(self):
        if self.chance.random() < 0.1:
            return self.chance.choice(EDGES)
        return self.chance.randint(1, self.scale)

    def tick(self):
        """One to come, if the clock began at 0 and no tick was refused, or one that has passed."""
        return min(LAST, max(0, self.now + self.chance.choice([1, 1, 1, -1]) * self.interval()))

    def number(self, client):
        if self.chance.random() < 0.03:
            return self.chance.choice([0, client.number - 1, client.number + 1, *EDGES])
        client.number += 1
        return client.number - 1

    def old(self, client):
        if not client.serials or self.chance.random() < 0.1:
            return self.chance.choice([0, self.serial, max(0, self.serial - 1), *EDGES])
        return self.chance.choice(client.serials[-20:])

    def add(self, word, **values):
        self.lines.append(" ".join([word, *(str(values[name]) for name in FIELDS[word])]))

    def request(self):
        c = self.chance.randrange(len(self.clients))
        client = self.clients[c]
        if self.chance.random() < 0.02:
            c = self.chance.choice([2, MOST - 1, MOST, LAST])
        word = self.chance.choices(list(REQUESTS), REQUESTS.values())[0]
        makes_timer = "interval" in FIELDS[word]
        if makes_timer and self.is_stream and self.chance.random() < 0.5:
            word += "-at"
        number, action = self.number(client), self.chance.randint(0, 9)
        self.add(word, client=c, number=number, serial=self.old(client), interval=self.interval(), deadline=self.tick(), action=action)
        if makes_timer:
            client.serials.append(self.serial)
            self.serial += 1

    def pass_ticks(self):
        if self.is_stream and self.chance.random() < 0.5:
            # `show --moves` over a hashed wheel passes each revolution up to it.
            tick = min(self.tick(), self.now + TICKS)
            self.add("at", tick=tick)
            self.now = max(self.now, tick)
        else:
            word, count = self.chance.choice(OTHERS), min(TICKS, max(1, self.interval()))
            self.add(word, **dict.fromkeys(FIELDS[word], count))
            self.now += count

    def text(self):
        length = self.chance.choice([3, 10, 40, 200, 1500])
        while len(self.lines) < length:
            kind = self.chance.random()
            if kind < 0.8:
                self.request()
            elif kind < 0.999:
                self.pass_ticks()
            else:
                self.add(CLOSE)
            if self.is_stream and self.chance.random() < 0.01:
                self.add("state")
        if self.chance.random() < 0.1:
            at = self.chance.randrange(len(self.lines))
            self.lines[at] = self.spoiled(self.lines[at])
        text = "".join(f"{line}\n" for line in self.lines).encode()
        return text[: self.chance.randrange(len(text))] if self.chance.random() < 0.05 else text

    def spoiled(self, line):
        at = self.chance.randrange(len(line) + 1)
        what = self.chance.choice(["", " ", "\t", "\r", "0", "9", "x", "\n", "-", "99999999999999999999"])
        return line[:at] + what + line[at + self.chance.choice([0, 1]) :]


def dictionary():
    """What afl-fuzz puts into scripts: parts of lines, and numbers."""
    lines = [f"{line}\\x0a" for section in ("script", "stream") for line in said(section, "example")]
    words = [f"{word} " for word in [*WORDS["script"], *WORDS["stream"]] if FIELDS[word]]
    for token in [*words, *lines, "\\x0a", " ", "00", *EDGES, LAST + 1, 2**64 - 1, 2**64]:
        print(f'"{token}"')


def main():
    compare, program, folder, seconds = sys.argv[1], sys.argv[2], sys.argv[3], float(sys.argv[4])
    seed = int(sys.argv[5]) if len(sys.argv) > 5 else 1
    end, scripts, lines = time.monotonic() + seconds, 0, 0
    while time.monotonic() < end:
        text = Script(seed + scripts).text()
        ran = subprocess.run([compare, program], input=text, stderr=subprocess.PIPE)
        if ran.returncode:
            kept = f"{folder}/script-{seed + scripts}"
            with open(kept, "wb") as file:
                file.write(text)
            sys.stderr.write(f"{kept}: {ran.stderr.decode(errors='replace')}")
            sys.exit(1)
        scripts += 1
        lines += text.count(b"\n")
    print(f"{scripts} scripts, {lines} lines")


if __name__ == "__main__":
    if len(sys.argv) > 1:
        main()
    else:
        dictionary()
