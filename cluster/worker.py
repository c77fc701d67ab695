#!/usr/bin/env python3
"""worker.py PLACE SHARD NAME ADDRESSES PROGRAM [OPTION=NUMBER ..]    a worker of a shard; scale.md says more

It plays the records of the shard's log in its child, and compares the answers: so it can take over at once. If it gets the lease
it works: it plays what clients send and what the clock says, and appends that as the next record, which the log accepts if it is
the next. If not, its child has played what is not in the log, and it ends. To clients it shows what stands in the log."""
import asyncio
import collections
import contextlib
import os
import re
import sys
import time

from logs import Again, Cut, Refused
from shard import EXPIRED_MOST, NO_CHAIN, Differs, Shard, parsed, said_by, sealed, snapshot

OPTIONS = {"lease": 3000, "bound": 100, "tick": 10, "capacity": 1 << 20, "clock": 0, "fence": 1, "duel": 0}
ASKED_MOST, LINE_MOST = 100000, 108  # bytes: of requests for which a record has room, and of one
RECENT = 64  # records, which no client has to wait for
ALL = 1 << 60  # lines: no record has as many
NUMBER = rb"(?: (?:0|[1-9]\d{0,18}))"
REQUESTS = re.compile(rb"(?:start%b{4}\n|stop%b{3}\n|restart%b{5}\n)*" % (NUMBER, NUMBER, NUMBER))


class GivesUp(Exception):
    """Another worker's record stands where ours was to stand, or our clock jumped."""


def elapsed():
    return time.clock_gettime(time.CLOCK_BOOTTIME)


def are_requests(lines):
    """As the child reads them. A client may send nothing else: no tick and no close."""
    return REQUESTS.fullmatch(lines) and not any(int(number) >> 60 for number in re.findall(rb"\d{19}", lines))


def told(record, text):
    """The CHAIN of a record, and what each client is told of it: lines with their numbers, but for requests not taken."""
    step, said = parsed(text), collections.defaultdict(list)
    for i, (asked, line) in enumerate(zip([b""] * len(step.expired) + step.requests, step.expired + step.answers), 1):
        if not line.endswith((b" repeated\n", b" ahead\n", b" no-client\n")):
            client = int(line.split(b" ", 3)[1 if asked else 2])
            said[client].append((i, b"said %d %d %s %d %s>%s" % (record, i, step.chain, step.tick, asked.rstrip(), line)))
    return step.chain, said


class Worker(Shard):
    def __init__(self, place, shard, name, addresses, program, options):
        self.options, self.lease, self.shard, self.written = options, options["lease"] / 1000, shard, 0
        self.name, (self.address, *self.others) = f"{name}-{os.urandom(4).hex()}", addresses.split(",")
        self.clients, self.recent, self.asked = {}, {}, []  # connections by numbers, what they are told, and what they asked for
        super().__init__(place, shard, program)
        self.heard, self.working = elapsed(), False

    def wall(self):
        return int(time.time() * 1000) + self.options["clock"]

    def is_off(self):
        """Whether our clock is, by more than the bound, from more than half of those that answer."""
        apart = [abs(said[3] - self.options["clock"]) for said in map(said_by, self.others) if said]
        return 2 * sum(ms > self.options["bound"] for ms in apart) > len(apart)

    async def follow_until_it_is_free(self):
        """The lease is held by who appends, four times in it or oftener. It decides who works, and never what is true: two that
        hold it at once are slow, not wrong. Nothing is known of those that were there before us, so we wait for as long. Only time
        in which the log answers counts. The lease is free once a read that was asked for after it found no record."""
        while True:
            asked = elapsed()
            try:
                while record := await asyncio.to_thread(self.log.read, self.last + 1):
                    self.follow(record)
                    asked = self.heard = elapsed()
                if self.options["duel"] or asked - self.heard >= self.lease:
                    if not await asyncio.to_thread(self.is_off):
                        return
                    self.heard = elapsed()
                await asyncio.sleep(0.02)
            except Again:
                await asyncio.sleep(0.02)
                self.heard += elapsed() - asked

    async def work(self):
        self.came, self.appended = asyncio.Event(), asyncio.Event()
        await asyncio.start_server(self.serve, *self.address.rsplit(":", 1))
        await self.follow_until_it_is_free()
        apart = self.wall() - 1000 * elapsed()
        if not self.last:
            genesis = self.wall(), self.options["tick"], self.options["capacity"]
            await self.append(b"genesis %d %d %d\n" % genesis)
            self.begins(*genesis)
        await self.step(always=True)  # so whoever worked before is fenced from now on
        print(f"{self.name}: works after record {self.last}", file=sys.stderr, flush=True)
        self.working = True
        while True:
            wait = 0.05 if self.wakeup is None else (self.epoch + self.wakeup * self.tick_ms - self.wall()) / 1000
            with contextlib.suppress(asyncio.TimeoutError):
                await asyncio.wait_for(self.came.wait(), min(max(wait, 0), 0.05))
            if abs(self.wall() - 1000 * elapsed() - apart) > self.options["bound"]:
                raise GivesUp("our clock jumped")
            renews = elapsed() - self.heard >= self.lease / 4
            if self.asked or renews or (self.wakeup is not None and self.tick() >= self.wakeup):
                asked, self.asked = b"".join(self.asked), []
                self.came.clear()
                await self.step(asked, renews)

    def tick(self):
        return max((self.wall() - self.epoch) // self.tick_ms, self.now)

    async def step(self, asked=b"", always=False):
        """Passes to the present tick, and plays these requests then. A step at which nothing happens needs no record."""
        self.advance(self.tick())
        while True:
            answers, self.owed = self.owed[:EXPIRED_MOST], self.owed[EXPIRED_MOST:]
            expired, requests = len(answers), b"" if self.owed else asked
            answers += self.answers_to(requests.splitlines(keepends=True))
            if answers or always:
                head = b"step %d %d %d %s.%d\n" % (self.now, expired, requests.count(b"\n"), self.name.encode(), self.written)
                await self.append(head + requests + b"".join(answers))
            if not self.owed:
                return

    async def append(self, body):
        record = sealed(self.chain, body)
        await asyncio.to_thread(self.insist, record)
        self.written, self.heard, self.last, self.chain = self.written + 1, elapsed(), self.last + 1, record[:16]
        self.recent[self.last] = told(self.last, record)
        self.recent.pop(self.last - RECENT, None)
        self.appended.set()
        self.appended = asyncio.Event()

    def insist(self, record):
        while not self.log.insist(self.last, record):
            if self.options["fence"]:
                raise GivesUp(f"fenced after record {self.last}")
            self.last = self.log.last()  # a test: what comes of it

    def latest(self, client):
        """Where a client begins that knows no place: the record of a snapshot, the chain, and its own last number."""
        text = snapshot(self.snapshots, 1) or b"after 0 " + NO_CHAIN
        number = re.search(rb"\nnumber %d (\d+)\n" % client, text)
        return int(text.split(None, 2)[1]), text.split(None, 3)[2], int(number[1]) if number else 0

    async def serve(self, reader, writer):
        """A client says which shard it means, which client it is, and after which line of which record it goes on: 0 is after the
        latest snapshot. Whoever was this client before is told no more. Others ask for our clock."""
        try:
            said = (await reader.readline()).split()
            if said == [b"clock"]:
                writer.write(f"{'works' if self.working else 'follows'} {self.name} {self.last} {self.wall()}\n".encode())
            elif self.working:
                shard, client, record, line, chain = said
                if shard.decode() != self.shard:
                    raise Cut("another shard")
                if before := self.clients.get(int(client)):
                    before.transport.abort()
                self.clients[int(client)] = writer
                shows = self.show(writer, int(client), int(record), int(line), chain)
                await asyncio.gather(self.hear(reader, writer, int(client)), shows)
        except Cut as why:
            writer.write(f"{why}\n".encode())
        except (OSError, ValueError, Again):
            pass
        finally:
            writer.close()

    async def show(self, writer, client, record, line, chain):
        """Tells a client what stands in the log and concerns it, until it is gone. If it doesn't read, this waits."""
        if not record:
            record, chain, number = await asyncio.to_thread(self.latest, client)
            line = ALL
            writer.write(b"from %d %d %s %d\n" % (record, line, chain, number))
        for _ in range(2):  # we were asleep, unless the log has no such record: an append that begins now makes its last one
            if record > self.last:
                await self.appended.wait()
        at = record or 1
        while self.clients.get(client) is writer:
            while at <= self.last:
                own, said = self.recent.get(at) or told(at, await asyncio.to_thread(self.log.wait, at, 2) or b"")
                if at == record and own != chain:
                    break
                writer.write(b"".join(text for i, text in said[client] if i > line))
                await writer.drain()
                at, line = at + 1, 0
            if at <= record:
                raise Cut("another past")
            writer.write(b"here %d %d %s 0\n" % (self.last, ALL, self.chain))
            await self.appended.wait()

    async def hear(self, reader, writer, client):
        """Takes its requests, as fast as they are played, and leaves whoever sends something else."""
        rest = b""
        with contextlib.suppress(OSError):
            while self.clients.get(client) is writer and (got := await reader.read(1 << 14)):
                lines, end, rest = (rest + got).rpartition(b"\n")
                if not are_requests(lines + end) or len(rest) > LINE_MOST:
                    break
                self.asked.append(lines + end)
                self.came.set()
                while sum(map(len, self.asked)) > ASKED_MOST:
                    await asyncio.sleep(0.001)
        if self.clients.get(client) is writer:
            del self.clients[client]
        writer.close()


async def main():
    place, shard, name, addresses, program, *given = sys.argv[1:]
    options = OPTIONS | {key: int(value) for key, value in (option.split("=") for option in given)}
    try:
        await Worker(place, shard, name, addresses, program, options).work()
    except (Refused, GivesUp, Cut, Again, OSError, Differs) as why:
        print(f"{name}: {type(why).__name__} {why}", file=sys.stderr, flush=True)
        os._exit({Refused: 2, Differs: 9}.get(type(why), 1))  # at once, whoever is served


if __name__ == "__main__":
    asyncio.run(main())
