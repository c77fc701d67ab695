#!/usr/bin/env python3
"""tests/cases.py [TITLES]   clusters under faults, judged by the model of ../judge.py: the cases whose titles match

Nothing depends on how fast the machine is. The program is that of the variable TIMERS, and nats-server what PATH has: a case
that needs 2.10, or one before it, takes the first that is so. The last line is 'N passed, M failed', with ', K skipped'."""
import argparse
import asyncio
import atexit
import collections
import concurrent.futures
import contextlib
import importlib.util
import itertools
import os
import pathlib
import re
import shutil
import socket
import subprocess
import sys
import tempfile
import time
import traceback
from unittest import SkipTest, mock

HERE = pathlib.Path(__file__).resolve().parent.parent
sys.path[:0] = [str(HERE), str(HERE.parent / "tools")]
import counts
from cluster import Cluster, until
from judge import Model
from logs import Again, Cut, Nats, Refused, open_log
from shard import NO_CHAIN, Differs, Shard, said_by, sealed
from timers_cluster import ANSWER, CUT, EXPIRED, FOREIGN, NOTHING, WRONG, Client, shard_of
from worker import OPTIONS, GivesUp, Worker, are_requests

CASES, SIDE_BY_SIDE = {}, 8
PROGRAM, FOLDER, NETS = os.environ["TIMERS"], tempfile.mkdtemp(), itertools.count(os.getpid() % 200 * 250)
atexit.register(shutil.rmtree, FOLDER, ignore_errors=True)


def case(function):
    CASES[function.__doc__] = function


def own_net(apart=False):
    number = next(NETS)
    return f"10.77.{number % 250}" if apart else f"127.{20 + number // 250}.{number % 250}"


@contextlib.contextmanager
def a_cluster(engine, *options, more=()):
    """One with one shard, whose workers have these options."""
    cluster = Case(tempfile.mkdtemp(dir=FOLDER))
    given = ["--program", PROGRAM, "--engine", engine, "--shards", "1", "--net", own_net("--apart" in more), *more]
    try:
        status, said = cluster.says("up", *given, "--options", "lease=2000", "bound=2000", *options)
        assert status == 0, said + (cluster.folder / "log").read_text()[-2000:]
        yield cluster
    finally:
        cluster.says("down")


class Case(Cluster):
    def says(self, verb, *words):
        """Its status, and what it printed."""
        command = [sys.executable, HERE / "cluster.py", verb, self.folder, *words]
        done = subprocess.run(command, stdout=subprocess.PIPE, stderr=subprocess.STDOUT, text=True, timeout=600, check=False)
        return done.returncode, done.stdout

    def stands(self, fault, *more):
        status, said = self.says("demo", "--seconds", "1", "--faults", fault, *more)
        assert status == 0 and said.endswith("\n0 lost, 0 doubled, 0 early, 0 out of order\n"), said

    def client(self, *given, **more):
        return Client(",".join(self.addresses(0)), "0", *given, **more)

    def does(self, fault):
        self.fault(argparse.Namespace(more=fault))

    def judged(self):
        model = Model(self["place"], "0")
        assert not model.judged(), model.wrong
        return model


def is_cut(log, at):
    with contextlib.suppress(Cut):
        log.read(at)
        return False
    return True


def keeps_promises(one, two, three, *others):
    assert one.last() == 0 and one.read(1) is None
    assert one.append(0, b"a\n") and not two.append(0, b"b\n") and not two.append(2, b"b\n")
    assert two.last() == 1 and two.read(1) == b"a\n" and two.append(1, b"x" * 700000)
    assert one.read(2) == b"x" * 700000 and not one.append(1, b"c")
    side_by_side = concurrent.futures.ThreadPoolExecutor(4).map(lambda log: log.append(2, b"r"), others)
    assert sorted(side_by_side) == [False] * 3 + [True]
    one.cut(2)
    assert is_cut(one, 2) and is_cut(two, 1) and not is_cut(two, 3)
    assert not any(log.append(last, b"d") for last in (0, 1, 2) for log in (one, two, three))
    two.cut(99)
    assert one.last() == 3 and one.read(3) == b"r" and one.append(3, b"") and two.last() == 4 and two.read(4) == b""


def said_of(place, call):
    """What the call gives of logs of this place, or why they are refused. Others are tried if there is no answer in time."""
    while True:
        name = os.urandom(4).hex()
        try:
            return call(*(open_log(place, name) for _ in range(7)))
        except Refused as why:
            return str(why)
        except Again:
            time.sleep(0.1)


def refused(place):
    return said_of(place, lambda log, *_: log.last())


@case
def told():
    """a client compares an answer's deadline and action with what it asked for, and asks for no more than its window"""
    for said, line in [(ANSWER, b"start 0 2 10 7>started 0 2 1 15"), (FOREIGN, b"start 0 2 10 8>started 0 2 1 15"),
                       (WRONG, b"start 0 2 10 7>started 0 2 1 16"), (WRONG, b"start 0 3 10 7>started 0 3 1 15"),
                       (EXPIRED, b">expired 5 0 1 7"), (CUT, b"cut"), (WRONG, b"another shard"), (WRONG, b"another past")]:
        with socket.create_server(("127.0.0.1", 0)) as server:
            client = Client(f"127.0.0.1:{server.getsockname()[1]}", "0", 0, window=1)
            assert not client.start(1, 1 << 60) and not client.stop(1 << 60) and not client.restart(1, 1 << 60, 1)
            assert client.start(10, 7) and not client.start(10, 7) and client.next(0).said == NOTHING
            with server.accept()[0] as connection:
                connection.settimeout(60)
                # What an earlier life asked for is no answer to what this one hasn't sent.
                connection.sendall(b"from 0 0 0 0\nsaid 1 1 1 5 start 0 1 10 7>started 0 1 1 15\nhere 1 9 1 0\n")
                assert until(lambda: client.next(0.1).said) == FOREIGN and client.next(0.2).said == NOTHING
                assert connection.recv(200).endswith(b"\nstart 0 2 10 7\n")
                connection.sendall(b"said 2 1 1 5 " * (b">" in line) + line + b"\n")
                assert until(lambda: client.next(0.1).said) == said, line
                assert said != FOREIGN or not connection.recv(9)  # what was sent has other numbers, and goes elsewhere
    assert {shard_of(str(key), 4) for key in range(100)} == {0, 1, 2, 3}


STEP = b"step 5 0 1 w.0\nstart 0 1 10 7\nstarted 0 1 1 15\n"
TWO = b"step 5 0 2 w.0\nstart 0 1 10 7\nstart 0 2 11 8\nstarted 0 1 1 15\nstarted 0 2 2 16\n"
EXPIRES = b"step 15 1 0 w.1\nexpired 15 0 1 7\n"
# What the judge counts in a log with these records.
DIFFERENCES = {
    "other answers": [STEP.replace(b"15", b"16")], "breaks in the chain": [STEP, STEP],
    "ticks that fall": [STEP, b"step 4 0 0 w.1\n"], "lost": [STEP, b"step 15 0 0 w.1\n"],
    "early": [STEP, EXPIRES.replace(b"step 15", b"step 14")], "doubled": [STEP, EXPIRES, EXPIRES],
    "out of order": [TWO, b"step 20 2 0 w.1\nexpired 16 0 2 8\nexpired 15 0 1 7\n"],
}


def log_of(records, breaks=False):
    """The place of the log of a shard 0 with these records after its first one."""
    place, record = f"file:{tempfile.mkdtemp(dir=FOLDER)}", NO_CHAIN
    for last, body in enumerate([b"genesis 0 10 100\n", *records]):
        record = sealed(b"1" * 16 if breaks and last else record[:16], body)
        assert open_log(place, "steps-0").append(last, record)
    return place


@case
def differences():
    """a follower stops at a record that differs from what it has played, and the judge counts it"""
    for what, records in DIFFERENCES.items():
        place = log_of(records, breaks="breaks" in what)
        worker = [sys.executable, HERE / "worker.py", place, "0", "differs", "127.0.0.1:0", PROGRAM]
        assert subprocess.run(worker, check=False, timeout=180).returncode == 9, what
        assert Model(place, "0").judged()[what], what


@case
def no_snapshot():
    """followers whose states differ make no snapshot"""
    cluster, states = Cluster(tempfile.mkdtemp(dir=FOLDER)), iter([[b"one\n"], [b"other\n"]])
    cluster.write("config", {"place": log_of([STEP]), "program": PROGRAM, "every": 2})
    never = mock.patch("cluster.keep_snapshot", side_effect=AssertionError)
    with mock.patch.object(Shard, "state", lambda _: next(states)), never, contextlib.suppress(Differs):
        cluster.snapshots(argparse.Namespace(more="0"))
    assert next(states, None) is None


@case
def bounds():
    """a lease is refused to a clock off by more than 100 ms and while no log answers; a worker whose clock jumps by as much ends"""
    said, seconds = [*[*[Again] * 9, None] * 2, None], [*[1] * 9, 2, *[1] * 9, 9, 0]  # of each read
    read = mock.Mock(side_effect=itertools.chain(said, itertools.repeat(None)))
    with mock.patch("worker.elapsed", lambda: sum(seconds[:read.call_count])):
        worker = Worker(log_of([]), "0", "waits", "127.0.0.1:0", PROGRAM, OPTIONS)
        worker.log.read = read
        asyncio.run(worker.follow_until_it_is_free())
    assert read.call_count == len(said)
    worker = Worker(log_of([STEP]), "0", "jumps", "127.0.0.1:0,a,b,c", PROGRAM, OPTIONS | {"lease": 100})
    for apart, is_off in (([101, 101, 0], True), ([-101, -101, 0], True), ([100, 100, 101], False), ([101, 0, None], False)):
        clocks = iter(apart)
        with mock.patch("worker.said_by", lambda _, clocks=clocks: (ms := next(clocks)) is not None and (False, "", 0, ms)):
            assert worker.is_off() == is_off
    real, jumps, why = worker.wall, iter([0] * 5), "it goes on"
    with mock.patch.object(worker, "wall", lambda: real() + next(jumps, 101)), mock.patch("worker.said_by", lambda _: None):
        try:
            asyncio.run(asyncio.wait_for(worker.work(), 60))
        except GivesUp as gives_up:
            why = str(gives_up)
    assert why == "our clock jumped"


@case
def asleep():
    """a client that comes with a later record than that of an append under way waits for the next append"""
    async def shows():
        worker = Worker(log_of([]), "0", "asleep", "127.0.0.1:0", PROGRAM, OPTIONS)
        worker.appended = under_way = asyncio.Event()
        shown = asyncio.create_task(worker.show(None, 0, 3, 1, b""))
        await asyncio.sleep(0)
        worker.appended = asyncio.Event()
        under_way.set()
        return await asyncio.wait([shown], timeout=0.1)
    assert not asyncio.run(shows())[0]


@case
def panics():
    """a node that panics is started again, and a worker that was refused is not"""
    cluster, says = Cluster(tempfile.mkdtemp(dir=FOLDER)), 'echo {} >> "$0"; exit 2'
    starts = cluster.folder / "starts"
    commands = {name: ["sh", "-c", says.format(name), starts] for name in ("node", "worker")}
    cluster.write("config", {"up": True, "apart": False})
    with mock.patch.object(Cluster, "commands", lambda _: commands), concurrent.futures.ThreadPoolExecutor() as pool:
        kept = pool.submit(cluster.keep, None)
        try:
            until(lambda: starts.exists() and starts.read_text().count("node") > 2)
        finally:
            cluster.down(None)
        kept.result()
    assert starts.read_text().count("worker") == 1


@case
def no_answer():
    """a log gives no answer, and `status` says so in one line"""
    cluster = Case(tempfile.mkdtemp(dir=FOLDER))
    cluster.write("config", {"place": "etcd:http://127.0.0.1:9", "shards": 1})
    assert cluster.says("status") == (1, "shard 0: no answer from etcd:http://127.0.0.1:9\n")


@case
def servers():
    """what servers say: NATS before 2.10 or without `sync_interval: always` is refused, and etcd may know no leader"""
    always = {"sync_always": True}
    for place, said, right in [("nats", {"version": "2.9.10", "jetstream": {"config": always}}, "which is before 2.10"),
                               ("nats", {"version": "2.10.27", "jetstream": {"config": {"domain": ""}}}, "lacks sync_interval"),
                               ("nats", {"version": "2.10.27", "jetstream": {}}, "None"),
                               ("nats", {"version": "2.10.27", "port": 1, "jetstream": {"config": always}}, "('host', 1)"),
                               ("etcd", {"header": {"member_id": "1"}}, "no leader")]:
        log = open_log(f"{place}:http://host:8222", "any")
        with mock.patch("logs.answer_of", lambda *_, said=said: said):
            try:
                found = log.leader() if place == "etcd" else log.checked(log.where)
            except (Refused, Again) as why:
                found = why
        assert right in str(found), found


@case
def places():
    """over a file a worker takes requests alone, the log is cut at a snapshot, a client's place is in it, and a shard is added"""
    for bad in (b"tick 5\n", b"start 0 1 1\n", b"start 0 01 1 1\n", b"stop 0 1 1152921504606846976\n", b"stop 0 1 1"):
        assert are_requests(b"stop 0 1 1\n") and not are_requests(b"stop 0 1 1\n" + bad)
    with a_cluster("file", more=["--every", "50"]) as cluster:
        host, port = until(lambda: [at for at in cluster.addresses(0) if (said := said_by(at)) and said[0]])[0].split(":")
        for said in (b"tick 5\n", b"x" * 200):
            with socket.create_connection((host, int(port)), 60) as connection:  # it is never silent for so long
                connection.sendall(b"0 0 0 0 0\n" + said)
                until(lambda connection=connection: not connection.recv(1000))
        assert not cluster.judged().most
        cluster.stands("all")
        until(lambda: is_cut(open_log(cluster["place"], "steps-0"), 50))
        client = cluster.client(9)
        client.start(10, 7)
        place = until(lambda: client.next(1).place)
        for other, what in ({"chain": 1}, WRONG), ({"record": place.record + 10**6}, WRONG), ({"record": 1}, CUT):
            assert until(lambda at=place._replace(**other): cluster.client(9, at).next(5).said) == what
        cluster.stands("a process is killed")
        cluster.says("shards", "2")
        until(lambda: cluster.says("status")[1].count("holds the lease") == 2)


@case
def many():
    """over a file two have one number, more expire than a record has room for, and workers are killed"""
    with a_cluster("file") as cluster:
        count, heard, end = 10000, collections.Counter(), time.monotonic() + 180
        client, other = cluster.client(7, window=count), cluster.client(7)
        assert all(client.start(300 + i % 3, i) for i in range(count)) and other.start(300, 7)
        for fault, enough in [("workers are stopped and wake up", lambda: not client.waiting() and not other.waiting()),
                              ("workers are killed", lambda: heard[EXPIRED] > count // 2),
                              ("workers are killed", lambda: heard[EXPIRED] == count + 1)]:
            cluster.does(fault)
            while not enough() and time.monotonic() < end:
                heard[client.next(0.1).said] += 1
                other.next(0.1 if other.waiting() else 0)
        # No record has more than a pipe has room for, and none more than a worker takes at once.
        assert heard[EXPIRED] == count + 1 and 1 << 16 < cluster.judged().most < 1 << 17, heard


@case
def full_disk():
    """over a file the disk is full until it is not"""
    small = tempfile.mkdtemp(dir=FOLDER)
    if subprocess.run(["mount", "-t", "tmpfs", "-o", "size=1m", "tmpfs", small], check=False).returncode:
        raise SkipTest("no small disk can be mounted")
    try:
        with a_cluster(f"file:{small}") as cluster, concurrent.futures.ThreadPoolExecutor() as pool:
            demo = pool.submit(cluster.stands, "none", "--seconds", "8", "--rate", "600")
            until(lambda: os.statvfs(small).f_bavail == 0)
            time.sleep(2)
            subprocess.run(["mount", "-o", "remount,size=64m", small], check=True)
            demo.result()
    finally:
        subprocess.run(["umount", "-l", small], check=True)


@case
def no_fence():
    """over a file without the fence, both workers work in the end, and timers are doubled"""
    with a_cluster("file", "fence=0") as cluster:
        demo = "demo", "--seconds", "1", "--faults", "workers are stopped and wake up", "--patience", "1"
        until(lambda: " 0 doubled" not in cluster.says(*demo)[1])


WORKERS = "workers are killed", "workers are stopped and wake up"
NODES = "the leader is killed", "the leader is stopped", "all nodes are killed"
CUT_OFF = "the leader is cut off both ways", "the leader is cut off one way", "workers are cut off from the log"
# Of each engine the faults, the options of workers and of `up`, and what the log has or has not.
SCENES = {
    "over a file workers are killed and stopped": ("file", WORKERS, []),
    "over a file two workers are active": ("file", WORKERS[1:], ["duel=1"], [], "GivesUp fenced"),
    "over a file a worker whose clock is off doesn't work":
        ("file", WORKERS[:1], ["0.0:clock=3600000"], ["--workers", "3"], "", "0.0-"),
    "over etcd workers and the leader are killed and stopped, and all nodes are killed": ("etcd", WORKERS + NODES, []),
    "over etcd two workers are active": ("etcd", WORKERS[1:], ["duel=1"], [], "GivesUp fenced"),
    "over etcd the leader is cut off both ways and one way, and workers are cut off": ("etcd", CUT_OFF, [], ["--apart"]),
    "over NATS from 2.10 workers and the leader are killed and stopped, and all nodes are killed":
        ("nats", WORKERS + NODES, []),
    "over NATS from 2.10 the leader is cut off both ways and one way, and workers are cut off":
        ("nats", CUT_OFF, [], ["--apart"]),
}


def stands(engine, faults, options, more=(), logs="", logs_no=" no such worker "):
    """A log keeps its promises, nothing is wrong with a demonstration of each fault, and the workers say this, and not that."""
    if engine == "etcd" and not shutil.which("etcd"):
        raise SkipTest("no etcd")
    if engine == "nats":
        os.environ["PATH"] = f"{nats_server([2, 10], [9])}:{os.environ['PATH']}"
    if "--apart" in more and subprocess.run(["unshare", "-n", "ip", "link"], stdout=-3, stderr=-3, check=False).returncode:
        raise SkipTest("network namespaces need iproute2, and root")
    with a_cluster(engine, *options, more=more) as cluster:
        said_of(cluster["place"], keeps_promises)
        for fault in faults:
            cluster.stands(fault)
        log = (cluster.folder / "log").read_text()
        assert logs in log and logs_no not in log and "Traceback" not in log, log


CASES |= {title: lambda row=row: stands(*row) for title, row in SCENES.items()}


@case
def postgres():
    """over PostgreSQL workers are killed; it is refused if it doesn't sync what it commits"""
    if not shutil.which("pg_virtualenv") or not shutil.which("psql") or not importlib.util.find_spec("psycopg2"):
        raise SkipTest("no postgresql, or no psycopg2")
    said = f"{FOLDER}/postgres"
    server = ["pg_virtualenv", "-t", "-o", "fsync=on", "sh", "-c", 'env | grep ^PG > "$0.new"; mv "$0.new" "$0"; exec cat', said]
    with subprocess.Popen(server, stdin=subprocess.PIPE, stdout=subprocess.DEVNULL):
        until(lambda: os.path.exists(said))
        given = dict(line.split("=", 1) for line in pathlib.Path(said).read_text().split())
        place = "postgres:host={PGHOST} port={PGPORT} user={PGUSER} password={PGPASSWORD} dbname={PGDATABASE}".format(**given)
        for setting in ("fsync", "full_page_writes", "synchronous_commit"):
            for value in ("off", "on"):
                sets = ["psql", "-qc", f"alter system set {setting} = {value}", "-c", "select pg_reload_conf()"]
                subprocess.run(sets, env=os.environ | given, stdout=subprocess.DEVNULL, check=True)
                until(lambda: (f"{setting} is off" in str(refused(place))) == (value == "off"))
        stands(place, WORKERS[:1], [])


def nats_server(least, below):
    """The folder of the first one in PATH with such a version."""
    for folder in os.environ["PATH"].split(":"):
        with contextlib.suppress(OSError):
            said = subprocess.run([f"{folder}/nats-server", "--version"], stdout=-1, text=True, check=True).stdout
            if least <= [*map(int, re.findall(r"\d+", said))] < below:
                return folder
    raise SkipTest("no such nats-server")


@case
def old_nats():
    """NATS before 2.10 is refused; its calls are the same"""
    host = own_net() + ".1"
    command = [nats_server([0], [2, 10]) + "/nats-server", "-js", "-sd", tempfile.mkdtemp(dir=FOLDER), "-a", host, "-m", "8222"]
    with subprocess.Popen(command, stdout=-3, stderr=-3) as server:
        try:
            assert "which is before 2.10" in refused(f"nats:http://{host}:8222")
            with mock.patch.object(Nats, "checked", lambda *_: (host, 4222)):
                said_of(f"nats:http://{host}:8222", keeps_promises)
        finally:
            server.terminate()


def main():
    played = pathlib.Path(os.environ.pop("PLAYED", os.devnull))
    known = played.read_text().splitlines()  # no test is played twice
    titles = [title for title in CASES if re.search("".join(sys.argv[1:]), title) and f"cluster: {title}" not in known]
    with concurrent.futures.ThreadPoolExecutor(SIDE_BY_SIDE) as pool:
        running = {pool.submit(CASES[title]): title for title in titles}
        for each in concurrent.futures.as_completed(running):
            if isinstance(why := each.exception(), SkipTest):
                counts.skip(running[each], why)
            else:
                counts.see(not why, running[each], "".join(traceback.format_exception(why)))
    played.write_text("".join(f"{line}\n" for line in [*known, *(f"cluster: {title}" for title in titles)]))
    counts.finish()


main()
