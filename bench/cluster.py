#!/usr/bin/env python3
"""Figures of a cluster on this machine, beside what else keeps timers on a disk. cluster/scale.md has them.

    cluster.py PROGRAM [--repeats 3] [--seconds 5] [--timers 1000000] [--shards 2,4,8] [--peers NAMES] [--pending 20000]
               [--only rates,late,failover,recovery,peers,peers_late,peers_failover]

Rates: a client of each shard sends requests in batches, and waits for the answers to each. Half of them start a timer, half stop
one. Late: each shard is asked for 500 timers a second; how long after its deadline a client reads that a timer has expired.
Failover: the longest silence for a client that asks every 10 ms, when something is killed. Recovery: how long a worker takes to
begin with so many pending timers, from a snapshot.

Peers do the same as rates, over one connection, each batch on the disk. Late: 500 timers a second in all, until who waits for them
has taken one out. Failover: the server, which has so many pending timers, is killed by SIGKILL, and started again at once."""
import argparse
import concurrent.futures
import contextlib
import os
import pathlib
import random
import re
import shutil
import signal
import socket
import statistics
import subprocess
import sys
import tempfile
import threading
import time

from figures import HERE, fail, machine, spread, write
from journal import BATCHES, rate

TOP = pathlib.Path(HERE).parent / "cluster"
if not TOP.exists():
    fail("cluster/ was deleted")
sys.path.insert(0, str(TOP))
sys.dont_write_bytecode = True
from cluster import Cluster
from logs import open_log
from shard import Shard, parsed, snapshot
from timers_cluster import ANSWER, EXPIRED, Client

PORT = 20_000 + os.getpid() % 20_000


class Own(Cluster):
    """A cluster of its own, over an engine."""

    def __init__(self, given, shards, engine="etcd", *more):
        super().__init__(tempfile.mkdtemp(dir=given.folder))
        net = f"127.{random.randrange(20, 250)}.1"
        self.says("up", "--program", given.program, "--shards", shards, "--engine", engine, "--net", net, *more)

    def says(self, *words):
        command = [sys.executable, TOP / "cluster.py", words[0], self.folder, *words[1:]]
        return subprocess.run([*map(str, command)], check=True, stdout=subprocess.PIPE, text=True).stdout

    def __enter__(self):
        return self

    def __exit__(self, *_):
        self.says("down")
        shutil.rmtree(self.folder, ignore_errors=True)

    def client(self, shard, number, window=10000):
        return Client(",".join(self.addresses(shard)), str(shard), number, None, window)

    def of_each_shard(self, call, *given):
        """What the call gives for each shard, each in a process."""
        with concurrent.futures.ProcessPoolExecutor(self["shards"]) as pool:
            return [*pool.map(call, [self] * self["shards"], range(self["shards"]), *([value] * self["shards"] for value in given))]


def reads(client, done):
    """The lines that come until that many answers came, or until `done` says so."""
    while not done():
        line = client.next(0.05)
        if line.said in (ANSWER, EXPIRED):
            yield line
        elif line.text:
            fail(f"the cluster says {line}")


def requests(cluster, shard, number, batch, seconds):
    """A second, of one shard."""
    client, serials, count = cluster.client(shard, number), [], 0
    client.start(1, 1)
    next(reads(client, lambda: False))
    begun = time.perf_counter()
    while (elapsed := time.perf_counter() - begun) < seconds:
        for _ in range(batch):
            if serials and count % 2:
                client.stop(serials.pop())
            else:
                client.start(100_000, 7)
            count += 1
        for line in reads(client, lambda: not client.waiting()):
            words = line.text.split()
            serials += [int(words[3])] * (words[0] == "started")
    client.close()
    return count / elapsed


def lateness(cluster, shard, number, asked, seconds):
    """In ms, of each timer."""
    epoch, tick, _ = parsed(open_log(cluster["place"], f"steps-{shard}").read(1)).genesis
    client, late, count, begun = cluster.client(shard, number), [], 0, time.perf_counter()

    def over():
        nonlocal count
        while count < asked * min(time.perf_counter() - begun, seconds):
            client.start(random.randrange(20, 220), 7)
            count += 1
        return len(late) == count and time.perf_counter() - begun > seconds

    for line in reads(client, over):
        if line.text.startswith("expired "):
            late.append(1000 * time.time() - epoch - tick * int(line.text.split()[1]))
    return late


def silence(cluster, number, fault):
    """The longest in seconds, for a client of shard 0."""
    client, came, gone = cluster.client(0, number), [time.perf_counter()], []
    killer = threading.Thread(target=lambda: (time.sleep(1), cluster.says("fault", fault), gone.append(time.perf_counter())))
    killer.start()
    asked = 0

    def over():
        nonlocal asked
        past = gone and came[-1] > gone[0] + 1
        if not past and asked < 100 * (time.perf_counter() - came[0]) and client.waiting() < 5000:
            client.start(100_000, 7)
            asked += 1
        return past and not client.waiting()

    for _ in reads(client, over):
        came.append(time.perf_counter())
    return max(later - before for before, later in zip(came, came[1:]))


def title(engine, shards):
    return f"{engine}, {shards} shard{'s' * (shards > 1)}"


def rates(given, shards_of):
    for engine, shards in [("etcd", shards) for shards in shards_of] + [("file", 1), ("file", 4)]:
        with Own(given, shards, engine) as cluster:
            found = {batch: [] for batch in BATCHES}
            for number, batch in enumerate(batch for _ in range(given.repeats) for batch in BATCHES):
                found[batch].append(sum(cluster.of_each_shard(requests, number, batch, given.seconds)))
            yield [title(engine, shards), *map(spread, found.values())]


def lates(of):
    """Cells of p50 and p99, of what several runs gave, each sorted."""
    return spread([statistics.median(late) for late in of]), spread([late[len(late) * 99 // 100] for late in of])


def late(given, shards_of):
    for engine, shards in [("etcd", shards) for shards in (1, *shards_of)] + [("file", 1), ("file", 4)]:
        with Own(given, shards, engine) as cluster:
            of = [sorted(sum(cluster.of_each_shard(lateness, number, 500, given.seconds), [])) for number in range(given.repeats)]
            yield [title(engine, shards), *lates(of)]


def failover(given, _):
    with Own(given, 4) as cluster:
        numbers = iter(range(64))
        for fault in ("workers are killed", "the leader is killed", "all nodes are killed"):
            found = []
            for _ in range(given.repeats):
                time.sleep(2)
                found.append(silence(cluster, next(numbers), fault))
            yield [fault, spread(found)]


def fill(cluster, shard, number, count):
    client, asked, answered = cluster.client(shard, number), 0, 0

    def over():
        nonlocal asked
        while asked < count and client.waiting() < 10_000:
            client.start(100_000_000 + asked % 1000, 7)
            asked += 1
        return answered == count

    for _ in reads(client, over):
        answered += 1


def recovery(given, _):
    with Own(given, 1, "etcd", "--every", 100) as cluster:
        begun = time.perf_counter()
        fill(cluster, 0, 0, given.timers)
        filled, place, ways, found = time.perf_counter() - begun, cluster["place"], [], []
        for _ in range(given.repeats):
            begun = time.perf_counter()
            shard = Shard(place, "0", given.program)
            ways.append(time.perf_counter() - begun)
            while record := shard.log.read(shard.last + 1):
                shard.follow(record)
            shard.play(b"at 0\n")
            found.append(time.perf_counter() - begun)
            with open(f"/proc/{shard.child.pid}/status", encoding="ascii") as status:
                memory = next(int(line.split()[1]) / 1024 for line in status if line.startswith("VmHWM"))
            size = len(snapshot(shard.snapshots)) / 1e6
            shard.child.kill()
        yield [f"{given.timers:,} timers, a snapshot of {size:.0f} MB", spread(ways), spread(found), f"{memory:.0f}", f"{given.timers / filled:.0f}"]


class Redis:
    """The time is the score. Who looks each 10 ms takes what ZREM takes."""
    workers = 1

    def __init__(self):
        self.peer = socket.create_connection(("127.0.0.1", PORT), 5)
        self.file = self.peer.makefile("rb")

    @staticmethod
    def command(folder, mode="always"):
        return ["redis-server", "--port", PORT, "--dir", folder, "--appendonly", "yes", "--appendfsync", mode, "--save", ""]

    def asks(self, lines):
        self.peer.sendall(b"".join(lines))
        said = [self.file.readline() for _ in lines]
        if any(not line.startswith(b":") for line in said):
            raise OSError(f"redis says {said[-1]}")
        return said

    def plays(self, numbers):
        self.asks([b"ZADD t 1000 %d\r\n" % n if n % 2 else b"ZREM t %d\r\n" % (n - 1) for n in numbers])

    def puts(self, timers):
        self.asks([b"ZADD t %d %d\r\n" % (due, n) for n, due in timers])

    def takes(self, now):
        self.peer.sendall(b"ZRANGEBYSCORE t -inf %d WITHSCORES LIMIT 0 1000\r\n" % now)
        said = [self.file.read(int(self.file.readline()[1:]) + 2) for _ in range(int(self.file.readline()[1:]))]
        taken = self.asks([b"ZREM t %b" % name for name in said[::2]])
        return [int(due) for due, one in zip(said[1::2], taken) if one == b":1\r\n"]


class EverySecond(Redis):
    @staticmethod
    def command(folder):
        return Redis.command(folder, "everysec")


class Postgres:
    """Rows that are put and deleted. In `takes`, workers take rows that are due, and delete them, in one transaction."""
    workers = 2
    TABLE = "create table if not exists t (id bigint primary key, due bigint, action bigint); create index if not exists d on t (due)"
    TAKES = "select id, due from t where due <= %s order by due, id limit %s for update skip locked"

    def __init__(self):
        import psycopg2
        base = psycopg2.connect(f"host=127.0.0.1 port={PORT} user=postgres dbname=postgres", connect_timeout=5)
        base.autocommit = True
        self.cursor = base.cursor()
        self.cursor.execute("set client_min_messages = error; " + self.TABLE)

    @staticmethod
    def command(folder):
        own = ["setpriv", "--reuid=postgres", "--regid=postgres", "--clear-groups"] if os.geteuid() == 0 else []
        tools, = pathlib.Path("/usr/lib/postgresql").glob("*/bin")
        if not os.path.exists(f"{folder}/base"):
            shutil.chown(folder, "postgres")
            subprocess.run([*own, tools / "initdb", "-D", f"{folder}/base", "-U", "postgres", "-A", "trust"], stdout=subprocess.DEVNULL, check=True)
        return [*own, tools / "postgres", "-D", f"{folder}/base", "-h", "127.0.0.1", "-p", PORT, "-k", ""]

    @staticmethod
    def inserts(timers):
        values = ",".join(f"({n}, {due}, 7)" for n, due in timers)
        return f"insert into t values {values} on conflict do nothing;" if values else ""

    def plays(self, numbers):
        stops = [n - 1 for n in numbers if n % 2 == 0]
        starts = self.inserts([(n, 1000) for n in numbers if n % 2])
        self.cursor.execute(f"{starts} delete from t where id = any(array{stops}::bigint[])")

    def puts(self, timers):
        self.cursor.execute(self.inserts(timers))

    def takes(self, now, most=1000):
        self.cursor.execute("begin; " + self.TAKES, (now, most))
        rows = self.cursor.fetchall()
        self.cursor.execute("delete from t where id = any(%s); commit", ([row[0] for row in rows],))
        return [due for _, due in rows]


class SkipLocked(Postgres):
    def plays(self, numbers):
        starts = [(n, 1000) for n in numbers if n % 2]
        if starts:
            self.puts(starts)
        if len(starts) < len(numbers) and not self.takes(1000, len(numbers) - len(starts)):
            fail("no row was taken")


class Beanstalkd:
    """A delay is of whole seconds: so it is rounded up, and a timer is late by that, too. A job is reserved, and then deleted."""
    workers = 1

    def __init__(self):
        self.peer = socket.create_connection(("127.0.0.1", PORT), 5)
        self.file = self.peer.makefile("rb")

    @staticmethod
    def command(folder):
        return ["beanstalkd", "-b", folder, "-f0", "-l", "127.0.0.1", "-p", PORT]

    def asks(self, *texts):
        self.peer.sendall(b"".join(texts))
        said = [self.file.readline() for _ in texts]
        if not said[-1].startswith((b"INSERTED", b"DELETED", b"RESERVED", b"TIMED_OUT")):
            raise OSError(f"beanstalkd says {said[-1]}")
        return said[-1].split()

    def plays(self, numbers):
        self.asks(*(b"put 0 1000 9 1\r\n7\r\n" if n % 2 else b"delete %d\r\n" % (n // 2) for n in numbers))

    def puts(self, timers):
        now = time.time() * 1000
        self.asks(*(b"put 0 %d 60 %d\r\n%d\r\n" % (max(0, -(now - due) // 1000 + 1), len(str(due)), due) for _, due in timers))

    def takes(self, _):
        taken = []
        while len(taken) < 1000 and (said := self.asks(b"reserve-with-timeout 0\r\n"))[0] == b"RESERVED":
            taken.append(int(self.file.readline()))
            self.asks(b"delete %b\r\n" % said[1])
        return taken


class RabbitMQ:
    """A durable queue whose messages die after a time, and go to another queue. A message can't be cancelled: all are put."""
    workers = 1

    def __init__(self):
        import pika
        self.channel = pika.BlockingConnection(pika.ConnectionParameters("127.0.0.1", PORT)).channel()
        self.channel.queue_declare("dead", durable=True)
        self.channel.queue_declare("t", durable=True, arguments={"x-dead-letter-exchange": "", "x-dead-letter-routing-key": "dead"})
        self.kept = lambda ms: pika.BasicProperties(delivery_mode=2, expiration=str(max(0, ms)))
        self.commits = False

    @staticmethod
    def command(folder):
        given = {"MNESIA_BASE": folder, "LOG_BASE": folder, "NODENAME": "figures@localhost", "NODE_PORT": PORT, "DIST_PORT": PORT + 1}
        return ["env", f"HOME={folder}", f"ERL_EPMD_PORT={PORT + 2}", *(f"RABBITMQ_{name}={value}" for name, value in given.items()),
                "/usr/lib/rabbitmq/bin/rabbitmq-server"]

    def puts(self, timers):
        if not self.commits:
            self.commits = self.channel.tx_select()
        now = int(time.time() * 1000)
        for _, due in timers:
            self.channel.basic_publish("", "t", b"%d" % due, self.kept(due - now))
        self.channel.tx_commit()

    def plays(self, numbers):
        self.puts([(n, (time.time() + 10000) * 1000 // 1) for n in numbers])

    def takes(self, _):
        taken, tag = [], None
        for method, _, body in self.channel.consume("dead", inactivity_timeout=0.01):
            if method is None or len(taken) == 1000:
                break
            taken.append(int(body))
            tag = method.delivery_tag
        if tag:
            self.channel.basic_ack(tag, multiple=True)
        return taken


class Server:
    """One of a peer, in a folder."""

    def __init__(self, kind, folder):
        self.kind, self.folder = kind, folder
        self.start()

    def __enter__(self):
        return self

    def start(self):
        command = [*map(str, self.kind.command(self.folder))]
        self.process = subprocess.Popen(command, stdout=subprocess.DEVNULL, stderr=subprocess.DEVNULL, start_new_session=True)

    def kill(self, number=signal.SIGKILL):
        with contextlib.suppress(ProcessLookupError):
            os.killpg(self.process.pid, number)
        self.process.wait()

    def __exit__(self, *_):
        self.kill(signal.SIGINT if issubclass(self.kind, Postgres) else signal.SIGTERM)  # which doesn't wait for clients
        if self.kind is RabbitMQ:
            subprocess.run(["epmd", "-port", str(PORT + 2), "-kill"], stdout=subprocess.DEVNULL, check=False)  # its nodes' names

    def connected(self):
        """A connection. A server that didn't start is started again."""
        while True:
            try:
                return self.kind()
            except Exception:
                time.sleep(0.02)
                if self.process.poll() is not None:
                    self.start()


@contextlib.contextmanager
def playing(kind, folder, _):
    with Server(kind, folder) as server:
        yield server.connected().plays


PEERS = {"Redis ZSET, AOF always": Redis, "Redis ZSET, AOF everysec": EverySecond, "PostgreSQL rows": Postgres,
         "PostgreSQL SKIP LOCKED": SkipLocked, "beanstalkd -f0": Beanstalkd, "RabbitMQ TTL, classic queue": RabbitMQ}


def peers_of(given):
    return [(name, kind) for name, kind in PEERS.items() if re.search(given.peers, name)]


def peers(given, _):
    for name, kind in peers_of(given):
        found = {batch: [rate((playing, kind, True), given.folder, batch, given.seconds) for _ in range(given.repeats)] for batch in BATCHES}
        yield [name, *map(spread, found.values())]


def peer_lateness(kind, given, intervals):
    """In ms, sorted, of 500 timers a second that one connection puts as they come, until others have taken them."""
    late, over = [], threading.Event()

    def works(server):
        peer = server.connected()
        while not over.is_set():
            taken = peer.takes(int(time.time() * 1000))
            late.extend(time.time() * 1000 - due for due in taken)
            time.sleep(0 if taken else 0.01)

    with tempfile.TemporaryDirectory(dir=given.folder) as folder, Server(kind, folder) as server:
        peer, count = server.connected(), 0
        with concurrent.futures.ThreadPoolExecutor() as pool:
            workers, begun = [pool.submit(works, server) for _ in range(kind.workers)], time.perf_counter()
            while (elapsed := time.perf_counter() - begun) < given.seconds or len(late) < count:
                wanted, now = int(500 * min(elapsed, given.seconds)), int(time.time() * 1000)
                if wanted > count:
                    peer.puts([(n, now + random.choice(intervals)) for n in range(count, wanted)])
                    count = wanted
                time.sleep(0.002)
                if any(worker.done() for worker in workers):
                    break
            over.set()
            for worker in workers:
                worker.result()
    return sorted(late)


def peers_late(given, _):
    for name, kind in [(name, kind) for name, kind in peers_of(given) if kind is not Postgres]:
        yield [name, *lates([peer_lateness(kind, given, range(200, 2200)) for _ in range(given.repeats)])]
    if kind is RabbitMQ:
        yield [f"{name}, all of 1.2 s", *lates([peer_lateness(kind, given, [1200]) for _ in range(given.repeats)])]


def peer_silence(server, first):
    """The longest in seconds, for one that puts a timer each 10 ms. The numbers are from `first` on."""
    peer, came, number, killed = server.connected(), [time.perf_counter()], first, None
    while not killed or came[-1] < killed + 1 or number < first + 200:
        if not killed and time.perf_counter() > came[0] + 1:
            killed = time.perf_counter()
            server.kill()
            server.start()
        try:
            peer.puts([(number, int(time.time() * 1000) + 1_000_000)])
        except Exception:
            peer = server.connected()
            continue
        came.append(time.perf_counter())
        number += 1
        time.sleep(0.01)
    return max(later - before for before, later in zip(came, came[1:]))


def peers_failover(given, _):
    for name, kind in peers_of(given):
        with tempfile.TemporaryDirectory(dir=given.folder) as folder, Server(kind, folder) as server:
            peer = server.connected()
            for first in range(0, given.pending, 1000):
                peer.puts([(n, int(time.time() * 1000) + 1_000_000) for n in range(first, first + 1000)])
            yield [name, spread([peer_silence(server, (1 + i) * 1_000_000) for i in range(given.repeats)])]


def main():
    parser = argparse.ArgumentParser()
    parser.add_argument("program", type=os.path.abspath)
    for name, default in ("repeats", 3), ("seconds", 5.0), ("timers", 1_000_000), ("pending", 20_000), ("shards", "2,4,8"), ("folder", tempfile.gettempdir()):
        parser.add_argument(f"--{name}", default=default, type=type(default))
    parser.add_argument("--only", default="rates,late,failover,recovery,peers,peers_late,peers_failover")
    parser.add_argument("--peers", default=".", help="those whose names match")
    given = parser.parse_args()
    heads = {"rates": ["requests a second, by batches", *BATCHES], "late": ["an expiry is late by, in ms", "p50", "p99"],
             "failover": ["silence, in s", ""], "recovery": ["recovery", "s, snapshot", "s, all", "MB", "filled, a second"],
             "peers": ["requests a second, by batches", *BATCHES], "peers_late": ["a timer is late by, in ms", "p50", "p99"],
             "peers_failover": ["silence, in s", ""]}
    for name in given.only.split(","):
        print(f"{machine()}; load {os.getloadavg()[0]:.1f}", flush=True)
        write(f"cluster_{name}", heads[name], globals()[name](given, [int(shards) for shards in given.shards.split(",")]))


if __name__ == "__main__":
    main()
