"""A shard: its log, and the machine that plays it, `timers serve` in a child, which is proved. scale.md has the forms of
records and snapshots."""
import collections
import contextlib
import socket
import subprocess
import tempfile
import threading
import time
import zlib

from logs import Cut, open_log

NO_CHAIN = b"0" * 16
EXPIRED_MOST = 4000  # of a record; if it has as many, the next one may go on

Step = collections.namedtuple("Step", "chain genesis tick requests expired answers")


class Differs(Exception):
    """A record doesn't follow from those before it."""


def sealed(chain, body):
    """A record. Its sum, CRC-32 and Adler-32, tells accidents, and no attacker."""
    return b"%08x%08x " % (zlib.crc32(chain + body), zlib.adler32(chain + body)) + body


def parsed(record):
    """Its step, which has nothing but three numbers if it is a genesis."""
    head, *lines = record.splitlines(keepends=True)
    chain, kind, *numbers = head.split()[:5]
    tick, expired, requests = map(int, numbers)
    if kind == b"genesis":
        return Step(chain, (tick, expired, requests), 0, [], [], [])
    return Step(chain, None, tick, lines[:requests], lines[requests:requests + expired], lines[requests + expired:])


class Follower:
    """Follows the records of a log, from the latest snapshot on: `last` is the record it has come to."""

    def __init__(self, place, shard):
        self.log, self.snapshots = (open_log(place, f"{log}-{shard}") for log in ("steps", "snapshots"))
        self.last, self.chain, self.now = 0, NO_CHAIN, 0
        if text := snapshot(self.snapshots):
            after, _, state = text.partition(b"\n")
            record, self.chain, *genesis = after.split()[1:]
            self.last, self.now = int(record), int(state.split(None, 3)[2])
            self.begins(*map(int, genesis), state=state)

    def differs(self, what):
        raise Differs(what)

    def follow(self, record):
        """The one after the last one."""
        step = parsed(record)
        if sealed(self.chain, record[len(step.chain) + 1:]) != record:
            self.differs("breaks in the chain")
        if step.tick < self.now:
            self.differs("ticks that fall")
        self.last, self.chain = self.last + 1, step.chain
        if step.genesis:
            self.begins(*step.genesis)
        else:
            self.plays(step)


class Shard(Follower):
    """What the records come to: its child is in the state after the last one."""

    def __init__(self, place, shard, program, scheme="hier"):
        self.command, self.wakeup, self.owed = [program, "serve", "--wakeups", "--scheme", scheme], None, []
        super().__init__(place, shard)

    def begins(self, *genesis, state=b""):
        """Starts the child, in this state."""
        self.epoch, self.tick_ms, self.capacity = genesis
        with tempfile.TemporaryFile(buffering=0) as file:
            file.write(state)
            given = ["--state", f"/dev/fd/{file.fileno()}"] if state else []
            self.child = subprocess.Popen([*self.command, "--capacity", str(self.capacity), *given], pass_fds=[file.fileno()],
                                          stdin=subprocess.PIPE, stdout=subprocess.PIPE)

    def play(self, text, requests=0):
        """The answers to lines. They have come when each request has its own, and then a line said when to wake up, which may
        come once for several lines. The child reads no more while nobody reads its answers, so a thread writes."""
        answers, pipe = [], self.child.stdin
        threading.Thread(target=lambda: (pipe.write(text), pipe.flush()), daemon=True).start()
        while line := self.child.stdout.readline():
            if not line.startswith(b"wakeup "):
                answers.append(line)
            elif len(answers) >= requests:
                self.wakeup = None if line == b"wakeup never\n" else int(line[7:])
                return answers
        raise OSError("the child has ended")

    def answers_to(self, requests):
        """One for each."""
        return self.play(b"".join(requests), len(requests)) if requests else []

    def advance(self, tick):
        self.owed += self.play(b"at %d\n" % tick)
        self.now = tick

    def plays(self, step):
        """Compares its answers with the child's."""
        self.advance(step.tick)
        expired, self.owed = self.owed[:len(step.expired)], self.owed[len(step.expired):]
        is_all = not self.owed or len(expired) == EXPIRED_MOST
        if expired != step.expired or not is_all or self.answers_to(step.requests) != step.answers:
            self.differs("other answers")

    def state(self):
        """A snapshot, or nothing if there can be none now: it has no room for what is handed out."""
        lines = self.play(b"state\n")
        if self.owed:
            return []
        return [b"after %d %s %d %d %d\n" % (self.last, self.chain, self.epoch, self.tick_ms, self.capacity), *lines]


def snapshot(log, most=None):
    """The text of the latest one that is whole, or its first part. If there is none it is empty."""
    at = log.last()
    with contextlib.suppress(Cut):
        while at:
            i, count = map(int, log.read(at).split(None, 3)[1:3])
            if i + 1 == count:
                return b"".join(log.read(part).partition(b"\n")[2] for part in range(at - i, at + 1)[:most])
            at -= i + 1
    return b""


def keep_snapshot(shard, lines, before):
    """Appends its parts in a row, and cuts off what it stands for."""
    parts = [b"".join(lines[i:i + 4000]) for i in range(0, len(lines), 4000)]
    last = shard.snapshots.last()
    if all(shard.snapshots.insist(last + i, b"part %d %d\n%b" % (i, len(parts), part)) for i, part in enumerate(parts)):
        shard.log.cut(before)
        shard.snapshots.cut(last)


def said_by(address):
    """What a worker says of itself: whether it works, its name and last record, and by how many ms its clock is ahead of ours.
    The ways there and back are taken to be the same, as by NTP."""
    host, port = address.rsplit(":", 1)
    with contextlib.suppress(OSError, ValueError), socket.create_connection((host, int(port)), 0.5) as connection:
        before = time.time()
        connection.sendall(b"clock\n")
        what, name, record, wall = connection.recv(200).decode().split()
        return what == "works", name, int(record), int(wall) - 500 * (before + time.time())
