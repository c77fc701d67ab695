#!/usr/bin/env python3
"""What nginx's documentation says of its time-outs, seen from a client.

    timeouts.py NGINX

A line for each check: its name, and ok or what came in its place. Nothing comes before its time-out, and each comes
within six seconds after it, since the machine may be busy. Status 1: a check failed.
"""
import os
import signal
import socket
import sys
import tempfile
import threading
import time

import server

LATE = 6
SETTINGS = """
worker_processes 1;
events {{ worker_connections 256; }}
http {{
    access_log off; client_header_timeout 1s; client_body_timeout 1s; keepalive_timeout 1s; proxy_read_timeout 1s;
    proxy_request_buffering on;
    server {{
        listen 127.0.0.1:{port};
        location / {{ empty_gif; }}
        location /silent {{ proxy_pass http://127.0.0.1:{silent}; }}
        location /slow {{ root {folder}; limit_rate 20k; }}
    }}
}}
"""


def until_closed(connection):
    """What comes until the other end closes, and how long that took."""
    begun, text = time.monotonic(), b""
    try:
        while more := connection.recv(65536):
            text += more
    except ConnectionResetError:
        pass
    return text, time.monotonic() - begun


def judge(took, least, text=b"", wanted=b""):
    """Nothing that is wrong, or what it is."""
    if took < least - 0.05 or took > least + LATE:
        return f"{took:.2f} s in place of {least} s"
    if wanted not in text:
        return f"{text[:40]!r} in place of {wanted!r}"
    return None


def client_header_timeout(port):
    """A client that sends nothing."""
    _, took = until_closed(server.connect(port))
    return judge(took, 1)


def client_header_timeout_of_half_a_header(port):
    """A client that sends half of its header gets a status."""
    connection = server.connect(port)
    connection.sendall(server.REQUEST[:10])
    text, took = until_closed(connection)
    return judge(took, 1, text, b" 408 ") if text else judge(took, 1)


def keepalive_timeout(port):
    """An idle client after its request."""
    connection = server.connect(port)
    connection.sendall(server.REQUEST)
    server.read_answer(connection)
    _, took = until_closed(connection)
    return judge(took, 1)


def keepalive_timeout_starts_again(port):
    """Requests half a second apart, for longer than the time-out."""
    connection = server.connect(port)
    for _ in range(5):
        connection.sendall(server.REQUEST)
        server.read_answer(connection)
        time.sleep(0.5)
    connection.sendall(server.REQUEST)
    server.read_answer(connection)
    _, took = until_closed(connection)
    return judge(took, 1)


def client_body_timeout(port):
    """A body of which a byte comes each half second, and then none."""
    connection = server.connect(port)
    connection.sendall(b"POST /silent HTTP/1.1\r\nHost: here\r\nContent-Length: 100\r\n\r\n")
    for _ in range(4):
        time.sleep(0.5)
        connection.sendall(b"x")
    text, took = until_closed(connection)
    return judge(took, 1, text, b" 408 ") if text else judge(took, 1)


def proxy_read_timeout(port):
    """A server behind nginx that takes the connection and sends nothing."""
    connection = server.connect(port)
    begun = time.monotonic()
    connection.sendall(b"GET /silent HTTP/1.1\r\nHost: here\r\nConnection: close\r\n\r\n")
    text, _ = until_closed(connection)
    return judge(time.monotonic() - begun, 1, text, b" 504 ")


def limit_rate(port):
    """60,000 bytes at 20 kB a second."""
    connection = server.connect(port)
    begun = time.monotonic()
    connection.sendall(b"GET /slow/file HTTP/1.1\r\nHost: here\r\nConnection: close\r\n\r\n")
    text, _ = until_closed(connection)
    return judge(time.monotonic() - begun, 2, text, b"x" * 60000)


CHECKS = [
    client_header_timeout, client_header_timeout_of_half_a_header, keepalive_timeout, keepalive_timeout_starts_again,
    client_body_timeout, proxy_read_timeout, limit_rate,
]


def run_all(port):
    """Runs all checks beside one another. Returns their results in order."""
    results = [None] * len(CHECKS)

    def run(k):
        try:
            results[k] = CHECKS[k](port) or "ok"
        except (OSError, EOFError, ValueError) as error:
            results[k] = repr(error)

    threads = [threading.Thread(target=run, args=(k,)) for k in range(len(CHECKS))]
    for each in threads:
        each.start()
    for each in threads:
        each.join()
    return list(zip((check.__name__ for check in CHECKS), results))


def end_beside_a_slow_client(port, process):
    """The worker ends after its last answer, and not before: timers that hold it up are looked for each turn."""
    connection = server.connect(port)
    begun = time.monotonic()
    connection.sendall(b"GET /slow/file HTTP/1.1\r\nHost: here\r\nConnection: close\r\n\r\n")
    time.sleep(0.5)
    process.send_signal(signal.SIGQUIT)
    text, _ = until_closed(connection)
    process.wait(LATE + 60)
    return judge(time.monotonic() - begun, 2, text, b"x" * 60000) or "ok"


def main():
    server.raise_limit()
    silent = socket.create_server(("127.0.0.1", 0))
    port = server.free_ports(1)[0]
    with tempfile.TemporaryDirectory() as folder:
        os.chmod(folder, 0o755)
        os.mkdir(os.path.join(folder, "slow"))
        with open(os.path.join(folder, "slow", "file"), "wb") as file:
            file.write(b"x" * 60000)
        settings = SETTINGS.format(port=port, silent=silent.getsockname()[1], folder=folder)
        with server.running(sys.argv[1], port, settings) as (process, _):
            results = run_all(port)
            results.append(("end_beside_a_slow_client", end_beside_a_slow_client(port, process)))
    for name, result in results:
        print(name, result)
    return 0 if all(result == "ok" for _, result in results) else 1


sys.exit(main())
