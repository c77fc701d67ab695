#!/usr/bin/env python3
"""Requests over loopback, beside idle connections.

    load.py NGINX IDLE REQUESTS             prints what came back
    load.py NGINX IDLE REQUESTS CLOCK US    nginx runs under callgrind, and the instructions of a request are printed

IDLE connections send one request each, and then wait for their time-out of ten minutes. Beside them REQUESTS
requests for a file of 43 bytes go over one connection, each after the answer to the last one. CLOCK is what clock.c
compiles to, and US the microseconds of a turn.
"""
import os
import re
import signal
import subprocess
import sys
import tempfile
import time

import server

SETTINGS = """
master_process off;
events {{ worker_connections {most}; multi_accept on; }}
http {{
    access_log off; keepalive_timeout 600s; keepalive_requests 100000000;
    server {{ listen 127.0.0.1:{port} backlog=1024; root {folder}; }}
}}
"""
TOGETHER = 64


def open_idle(port, count):
    """Connections that have had an answer. Some send their requests together, so that nginx has much to do in a turn."""
    idle = []
    for first in range(0, count, TOGETHER):
        some = [server.connect(port) for _ in range(first, min(first + TOGETHER, count))]
        for connection in some:
            connection.sendall(server.REQUEST)
        for connection in some:
            server.read_answer(connection)
        idle += some
    return idle


def ask(connection, requests):
    """Returns how many answers came."""
    for _ in range(requests):
        connection.sendall(server.REQUEST)
        server.read_answer(connection)
    return requests


def count_open(connections):
    """How many of these are still open. It closes them."""
    still_open = 0
    for connection in connections:
        connection.setblocking(False)
        try:
            connection.recv(1)
        except BlockingIOError:
            still_open += 1
        connection.close()
    return still_open


def counted_since_mark(process, counts, number):
    """Lets callgrind write its counts number `number`, and returns the instructions."""
    process.send_signal(signal.SIGRTMIN)
    end = time.monotonic() + 120
    while time.monotonic() < end:
        try:
            with open(f"{counts}.{number}", encoding="utf-8") as file:
                if found := re.search(r"^(?:summary|totals): (\d+)", file.read(), re.MULTILINE):
                    return int(found.group(1))
        except FileNotFoundError:
            pass
        time.sleep(0.05)
    raise TimeoutError("no counts of callgrind")


def under_callgrind(clock, turn, counts):
    """The beginning of a command that runs nginx so."""
    return ["env", "LD_PRELOAD=" + clock, "TURN_US=" + turn, "valgrind", "--tool=callgrind", "--log-file=/dev/null",
            "--callgrind-out-file=" + counts]


def main():
    nginx, idle, requests, counting = sys.argv[1], int(sys.argv[2]), int(sys.argv[3]), sys.argv[4:]
    server.raise_limit()
    port = server.free_ports(1)[0]
    with tempfile.TemporaryDirectory() as folder:
        os.chmod(folder, 0o755)
        with open(os.path.join(folder, "index.html"), "wb") as file:
            file.write(b"x" * server.LENGTH)
        settings = SETTINGS.format(port=port, most=idle * 5 // 4 + 64, folder=folder)
        counts = os.path.join(folder, "counts")
        prefix = under_callgrind(*counting, counts) if counting else ()
        with server.running(nginx, port, settings, prefix) as (process, _):
            waiting = open_idle(port, idle)
            with server.connect(port) as busy:
                ask(busy, 10)
                if counting:
                    counted_since_mark(process, counts, 1)
                answers = ask(busy, requests)
                if counting:
                    print(counted_since_mark(process, counts, 2) // requests)
            still_open = count_open(waiting)
    if not counting:
        print(f"{answers} answers, {still_open} idle connections open")
    return 0


try:
    sys.exit(main())
except (OSError, EOFError, ValueError, subprocess.SubprocessError) as error:
    sys.exit(f"load.py: {error}")
