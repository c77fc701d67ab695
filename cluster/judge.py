"""What judges a cluster: clients with random requests, and a model of a shard that follows its log."""
import collections
import contextlib
import random
import threading
import time

from logs import Again
from shard import EXPIRED_MOST, Follower
from timers_cluster import ANSWER, CUT, NOTHING, WRONG, Client

LAST = 2**60 - 1


class Load(threading.Thread):
    """A client that asks at random until the event `ended`, and then waits until all its timers are gone. At any time it may end,
    with requests under way, and go on after the last line that it has read."""

    def __init__(self, opens, ended, given):
        super().__init__(daemon=True)
        self.opens, self.ended, self.rate, self.left = opens, ended, given.rate, given.patience  # seconds after the end
        self.said, self.lines, self.pending, self.asked, self.answers = "stuck", [], set(), 0, 0
        self.start()

    def begins(self, place=None):
        """A life. It knows all that earlier ones did once its first request is answered."""
        self.client = Client(*self.opens, place)
        self.asked += self.client.start(1, random.randrange(2**60))

    def ask(self):
        serial, interval = random.choice([*self.pending, random.randrange(1, 10**6)]), random.choice((0, 1, 10, 100, 100, 200))
        kinds = {"start": (interval, random.randrange(2**60)), "stop": (serial,), "restart": (serial, interval, 7)}
        what, = random.choices([*kinds], (60, 25, 15))
        self.asked += getattr(self.client, what)(*kinds[what])

    def hear(self, said, text, place):
        self.lines.append(text)
        self.answers += said == ANSWER
        word, *values = text.split(" ")
        if word in ("expired", "stopped", "restarted"):
            self.pending.discard(int(values[2]))
        if word in ("started", "restarted"):
            self.pending.add(int(values[-2]))
        if not self.ended.is_set() and random.random() < 0.003:
            self.asked -= self.client.waiting()
            self.client.close()
            self.begins(place)

    def run(self):
        self.begins()
        begun = time.monotonic()
        while self.left > 0 and (self.pending or self.client.waiting() or not self.ended.is_set()):
            due = 0 if self.ended.is_set() else (time.monotonic() - begun) * self.rate
            while self.asked < due and self.client.waiting() < 1000:
                self.ask()
            line = self.client.next(0.02)
            if line.said in (CUT, WRONG):
                self.said = f"told that it was cut off, or something wrong: {line.text}"
                break
            if line.said != NOTHING:
                self.hear(*line)
            self.left -= 0.02 * (line.said == NOTHING and self.ended.is_set())
        else:
            self.said = "done" if self.left > 0 else self.said
        self.client.close()


class Model(Follower):
    """An independent model of a shard: docs/formats.md on a dictionary. It counts what is wrong with the log."""

    def __init__(self, place, shard):
        self.shard, self.wrong, self.lines = shard, collections.Counter(), collections.defaultdict(list)  # of each client
        self.latest, self.expired, self.most = (), 0, 0  # bytes of requests in a record
        super().__init__(place, shard)

    def begins(self, *genesis, state=b""):
        self.capacity, self.serials, self.numbers, self.pending = genesis[2], 0, [0] * 64, {}
        for word, *values in map(bytes.split, state.splitlines()):
            if word == b"timer":
                serial, client, _, deadline, action = map(int, values)
                self.pending[serial] = deadline, client, serial, action
            elif word == b"number":
                self.numbers[int(values[0])] = int(values[1])
            elif values[0] == b"open":
                self.serials = int(values[2])

    def differs(self, what):
        self.wrong[what] += 1

    def plays(self, step):
        self.now, self.most = step.tick, max(self.most, sum(map(len, step.requests)))
        expired, answers = ([line.decode()[:-1] for line in lines] for lines in (step.expired, step.answers))
        self.expires([tuple(map(int, line.split()[1:])) for line in expired])
        wanted = [self.answer(word, *map(int, values)) for word, *values in (line.decode().split() for line in step.requests)]
        self.wrong["other answers"] += answers != wanted
        for line in expired + answers:
            word, *values = line.split()
            if values[-1] not in ("repeated", "ahead"):
                self.lines[int(values[word == "expired"])].append(line)

    def expires(self, said):
        """The headline: each timer once, not before its deadline, in order. What a record has no room for is in the next one."""
        self.expired += len(said)
        for timer in said:
            tick, _, serial, _ = timer
            self.wrong["early"] += tick > self.now
            self.wrong["doubled"] += self.pending.pop(serial, None) != timer  # it was handed out before, or never was
            self.wrong["out of order"] += (tick, serial) <= self.latest
            self.latest = tick, serial
        if len(said) < EXPIRED_MOST:
            left = [serial for serial, (deadline, *_) in self.pending.items() if deadline <= self.now]
            self.wrong["lost"] += len([self.pending.pop(serial) for serial in left])

    def answer(self, word, client, number, *rest):
        refused, serial, (interval, action) = f"refused {client} {number} ", rest[0], (rest[-2:] if word != "stop" else (1, 0))
        if client > 63:
            return refused + "no-client"
        if number != self.numbers[client] + 1:
            return refused + ("ahead" if number > self.numbers[client] else "repeated")
        self.numbers[client] = number
        if word != "start" and (serial not in self.pending or self.pending[serial][1] != client):
            return refused + "no-such"
        if word != "stop" and (interval == 0 or self.now + interval > LAST):
            return refused + ("too-late" if interval else "zero-interval")
        if word == "start" and len(self.pending) >= self.capacity:
            return refused + "full"
        if word != "start":
            del self.pending[serial]
        if word == "stop":
            return f"stopped {client} {number} {serial}"
        self.serials += 1
        self.pending[self.serials] = self.now + interval, client, self.serials, action
        return f"{word}ed {client} {number}{f' {serial}' * (word == 'restart')} {self.serials} {self.now + interval}"

    def judged(self, loads=()):
        """What is wrong by the end of the log, once these clients have ended: also whether each saw what the log says."""
        end = None
        while end is None or self.last < end:
            if record := self.log.wait(self.last + 1, 0.1):
                self.follow(record)
            elif not any(load.is_alive() for load in loads):
                with contextlib.suppress(Again):
                    end = self.log.last()
        for load in loads:
            self.wrong[f"client that is {load.said}"] += load.said != "done"
            self.wrong["requests without one answer"] += abs(load.asked - load.answers)
            self.wrong["client that saw other lines"] += load.lines != self.lines[load.opens[2]][-len(load.lines):]
        return +self.wrong
