"""Logs: records of at most 1,000,000 bytes, numbered from 1, that an engine keeps. A log is a list that only grows at its end.

A cluster needs four calls of an engine: which record is the last, read one, append if the last one is L, and cut off what a
snapshot has. That append is atomic, in the log's own order: of all that append after L one is accepted."""
import base64
import contextlib
import http.client
import itertools
import json
import os
import random
import re
import socket
import sqlite3
import threading
import time
import urllib.parse


class Again(Exception):
    """No answer in time, or no room. An append may have been accepted, or be accepted later."""


class Cut(Exception):
    """The record was cut off, or stands in another log."""


class Refused(Exception):
    """The engine, or one of its settings, must not be used."""


class Log:
    """What all engines share. Each has `connect`; `last`, 0 if the log is empty; `fetch`, at most 16 records from a number on,
    with their numbers; `append`, which says whether the record stands there; and `delete`."""
    connection, errors = None, (OSError, ValueError, http.client.HTTPException)
    ahead = {}  # what was fetched, and not read yet: records don't change

    def __init__(self, where, name):
        self.where, self.name, self.lock = where, name, threading.Lock()

    @contextlib.contextmanager
    def connected(self):
        """A connection, for one thread at a time, and after an error another one."""
        with self.lock:
            try:
                self.connection = self.connection or self.connect()
                yield self.connection
            except self.errors as why:
                self.connection = None
                raise Again(why) from why

    def read(self, at):
        """None if there is no such record yet."""
        if (record := self.ahead.pop(at, None)) is None:
            found = dict(self.fetch(at))
            if found and at not in found:
                raise Cut("cut")
            record, self.ahead = found.pop(at, None), found
        return record

    def wait(self, at, seconds):
        """Waits for a record: None if it doesn't come in time. What an engine would report by itself is lost with its node."""
        end, pause = time.monotonic() + seconds, 0.002
        while True:
            with contextlib.suppress(Again):
                if (record := self.read(at)) is not None:
                    return record
            if (left := end - time.monotonic()) <= 0:
                return None
            time.sleep(min(pause, left))
            pause = min(2 * pause, 0.05)

    def insist(self, last, record):
        """Appends, until it is known whether this record, of which there is but one, stands there."""
        while True:
            with contextlib.suppress(Again):
                return self.append(last, record) or self.read(last + 1) == record
            time.sleep(0.02)

    def cut(self, upto):
        """But never the last record, which says the next one's number."""
        if (upto := min(upto, self.last() - 1)) > 0:
            self.delete(upto)


def server_at(url):
    return http.client.HTTPConnection(urllib.parse.urlsplit(url).netloc, timeout=2)


def answer_of(server, path, asked=None):
    """What a server of JSON answers."""
    server.request("POST" if asked else "GET", path, asked and json.dumps(asked))
    answer = server.getresponse()
    text = answer.read()
    if answer.status != 200:
        raise OSError(text)
    return json.loads(text)


class Etcd(Log):
    """Through etcd's JSON gateway: record N is the key timers/NAME/N, N in 16 hexadecimal digits. Reads are linearizable, so a
    node that is cut off from the others gives no answer. Then the next one is asked."""

    def __init__(self, where, name):
        super().__init__(where, name)
        self.urls, self.turn = where.split(","), itertools.cycle(where.split(","))

    def connect(self):
        return server_at(next(self.turn))

    def ask(self, path, asked):
        with self.connected() as server:
            return answer_of(server, f"/v3/kv/{path}", asked)

    def span(self, first, end=2**64 - 1):
        keys = (base64.b64encode(f"timers/{self.name}/{number:016x}".encode()).decode() for number in (first, end))
        return dict(zip(("key", "range_end"), keys))

    def range(self, at, **options):
        """Records from `at` on, and how many there are."""
        said = self.ask("range", self.span(at) | options)
        found = [[base64.b64decode(one.get(part, "")) for part in ("key", "value")] for one in said.get("kvs", [])]
        return [(int(key[-16:], 16), value) for key, value in found], int(said.get("count", 0))

    def last(self):
        found, count = self.range(0, limit=1, keys_only=True)
        return found[0][0] + count - 1 if found else 0

    def fetch(self, at):
        return self.range(at, limit=16)[0]

    def append(self, last, record):
        """One transaction: if record L is there and no next one, make L + 1. A cut takes the first ones, never what follows one
        that stays. To look at all after L takes etcd as long as they are, and who is far behind may ask again and again."""
        there = {"target": "CREATE", "result": "GREATER", "create_revision": 0, "key": self.span(last)["key"]}
        span = self.span(last + 1, last + 2 if last else 2**64 - 1)
        none = {"target": "CREATE", "result": "EQUAL", "create_revision": 0} | span
        put = {"request_put": {"key": none["key"], "value": base64.b64encode(record).decode()}}
        return self.ask("txn", {"compare": [none] + [there] * (last > 0), "success": [put]}).get("succeeded", False)

    def delete(self, upto):
        self.ask("deleterange", self.span(0, upto + 1))

    def leader(self):
        """Which of the servers it is."""
        for i, url in enumerate(self.urls):
            with contextlib.suppress(*self.errors):
                said = answer_of(server_at(url), "/v3/maintenance/status", {"": 0})
                if said.get("leader") == said["header"]["member_id"]:
                    return i
        raise Again("no leader")


class Sql(Log):
    """Rows of the table timers_log, over Python's interface to databases, in which each statement is a transaction."""
    TABLE = "create table if not exists timers_log (log text, record bigint, body bytea not null, primary key (log, record))"
    LAST = "(select coalesce(max(record), 0) from timers_log where log = :log)"
    insert, mark = f"insert into timers_log select :log, :at, :body where :at = 1 + {LAST}", r":\1"

    def run(self, statement, **values):
        """Rows, or how many rows a statement made or deleted."""
        with self.connected() as base, contextlib.closing(base.cursor()) as cursor:
            cursor.execute(re.sub(r":(\w+)", self.mark, statement), {"log": self.name} | values)
            return cursor.fetchall() if cursor.description else cursor.rowcount

    def last(self):
        return self.run(f"select {self.LAST}")[0][0]

    def fetch(self, at):
        found = self.run("select record, body from timers_log where log = :log and record >= :at order by record limit 16", at=at)
        return [(number, bytes(body)) for number, body in found]

    def append(self, last, record):
        return self.run(self.insert, at=last + 1, body=record) == 1

    def delete(self, upto):
        self.run("delete from timers_log where log = :log and record <= :at", at=upto)


class File(Sql):
    """A file of SQLite in a folder of this machine. What was committed is synced."""
    errors = sqlite3.OperationalError  # it is locked, or the disk is full

    def connect(self):
        os.makedirs(self.where, exist_ok=True)
        base = sqlite3.connect(os.path.join(self.where, self.name), 1, 0, None, False)
        # The last one syncs what somebody left that died.
        for statement in ("pragma journal_mode = wal", "pragma synchronous = full", self.TABLE, "pragma wal_checkpoint"):
            base.execute(statement).fetchall()
        return base


class Postgres(Sql):
    """Through psycopg2. A server that doesn't sync what it commits is refused."""
    # All that append to one log come one after another. So each sees what those before it did.
    insert, mark = f"select pg_advisory_xact_lock(hashtext(:log)); {Sql.insert}", r"%(\1)s"

    def connect(self):
        import psycopg2
        self.errors = psycopg2.Error
        options = "-c statement_timeout=3000 -c client_min_messages=error"
        base = psycopg2.connect(self.where, connect_timeout=2, tcp_user_timeout=5000, options=options)
        base.autocommit = True
        with base.cursor() as cursor:
            cursor.execute(self.TABLE)
            cursor.execute("""select name from pg_settings where setting = 'off'
                and name in ('fsync', 'full_page_writes', 'synchronous_commit')""")
            for name, in cursor:
                raise Refused(f"{name} is off: what is committed may be lost")
        return base


class Nats(Log):
    """The messages of the JetStream stream timers-NAME, over NATS' own lines. An append is a publish that expects L to be last.

    Refused: a server before 2.10, whose replicas of one stream came to hold different messages when it was paused or killed, and
    one that acknowledges before it syncs. Both are read from the /varz of each server that answers."""
    MISSING, WRONG_LAST = 10037, 10071  # errors of JetStream
    asked = itertools.count()

    def connect(self):
        monitors = self.where.split(",")
        servers = [server for server in map(self.checked, monitors) if server]
        if 2 * len(servers) <= len(monitors):
            raise OSError("most servers don't answer")
        peer, self.inbox = socket.create_connection(random.choice(servers), 2).makefile("rwb"), os.urandom(8).hex().encode()
        peer.write(b'CONNECT {"verbose":false,"headers":true,"no_responders":true}\r\nSUB _INBOX.%b.* 1\r\n' % self.inbox)
        replicas = {"storage": "file", "num_replicas": 3 if len(monitors) > 2 else 1}
        stream = {"name": f"timers-{self.name}", "subjects": [f"timers.{self.name}"]} | replicas
        self.exchange(peer, f"$JS.API.STREAM.CREATE.timers-{self.name}", json.dumps(stream).encode())
        return peer

    def checked(self, monitor):
        """Where the server is for clients, if it serves them."""
        with contextlib.suppress(*self.errors):
            said = answer_of(server_at(monitor), "/varz")
            if [int(part) for part in said["version"].split(".")[:2]] < [2, 10]:
                raise Refused(f"{monitor} has version {said['version']}, which is before 2.10")
            if (config := said.get("jetstream", {}).get("config")) and not config.get("sync_always"):
                raise Refused(f"{monitor} lacks sync_interval: always")
            return (urllib.parse.urlsplit(monitor).hostname, said["port"]) if config else None  # while it begins it has none

    def exchange(self, peer, subject, body, header=b""):
        """What is answered, with its error's number. Each request has an inbox of its own, since two servers may answer one."""
        head, inbox = b"NATS/1.0\r\n%b\r\n" % header, b"_INBOX.%b.%d" % (self.inbox, next(self.asked))
        sizes = len(head), len(head) + len(body)
        peer.write(b"HPUB %b %b %d %d\r\n%b%b\r\n" % (subject.encode(), inbox, *sizes, head, body))
        peer.flush()
        for line in peer:
            kind, to, *rest = line.split() + [b""]
            if kind == b"PING":
                peer.write(b"PONG\r\n")
                peer.flush()
            elif kind in (b"MSG", b"HMSG"):
                text = peer.read(int(rest[-2]) + 2)
                if to == inbox:
                    said = json.loads(text[int(rest[-3]) if kind == b"HMSG" else 0:])
                    error = said.get("error", {}).get("err_code", 0)
                    if error not in (0, self.MISSING, self.WRONG_LAST):
                        raise OSError(said["error"])
                    return error, said
        raise OSError("the server is gone")

    def ask(self, call, asked=None):
        with self.connected() as peer:
            return self.exchange(peer, f"$JS.API.STREAM.{call}.timers-{self.name}", json.dumps(asked).encode() if asked else b"")

    def leader(self):
        """The number at the end of its name."""
        return int(self.ask("INFO")[1]["cluster"].get("leader", "n0")[-1])

    def last(self):
        return self.ask("INFO")[1]["state"]["last_seq"]

    def fetch(self, at):
        error, said = self.ask("MSG.GET", {"seq": at})
        if error and at < self.ask("INFO")[1]["state"]["first_seq"]:
            raise Cut("cut")
        return [] if error else [(at, base64.b64decode(said["message"].get("data", "")))]

    def append(self, last, record):
        with self.connected() as peer:
            return not self.exchange(peer, f"timers.{self.name}", record, b"Nats-Expected-Last-Sequence: %d\r\n" % last)[0]

    def delete(self, upto):
        self.ask("PURGE", {"seq": upto + 1})


def open_log(place, name):
    """A log, which is empty if nothing was appended. It connects when it is first asked. A place is an engine and what it needs:

        file:FOLDER                              etcd:http://HOST:2379,http://HOST:2379
        postgres:host=.. dbname=..               nats:http://HOST:8222,..   (its monitoring ports)"""
    engine, _, where = place.partition(":")
    engines = {"file": File, "etcd": Etcd, "postgres": Postgres, "nats": Nats}
    if engine not in engines:
        raise Refused(f"{place}: no such engine")
    return engines[engine](where, name)
