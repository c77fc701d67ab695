"""An nginx of this folder's builds: started with a configuration, ended by SIGQUIT."""
import contextlib
import os
import resource
import shutil
import signal
import socket
import subprocess
import tempfile
import time

LENGTH = 43    # of an answer: that of nginx's empty_gif
REQUEST = b"GET / HTTP/1.1\r\nHost: here\r\n\r\n"


def free_ports(count):
    """Ports of 127.0.0.1 that nothing listens on."""
    sockets = [socket.socket() for _ in range(count)]
    for each in sockets:
        each.bind(("127.0.0.1", 0))
    ports = [each.getsockname()[1] for each in sockets]
    for each in sockets:
        each.close()
    return ports


def raise_limit():
    """As many open files as may be."""
    most = resource.getrlimit(resource.RLIMIT_NOFILE)[1]
    resource.setrlimit(resource.RLIMIT_NOFILE, (most, most))


def connect(port):
    """A connection, tried for a minute: under valgrind nginx starts slowly."""
    end = time.monotonic() + 60
    while True:
        try:
            return socket.create_connection(("127.0.0.1", port), timeout=60)
        except ConnectionRefusedError:
            if time.monotonic() > end:
                raise
            time.sleep(0.05)


@contextlib.contextmanager
def running(nginx, port, settings, prefix=()):
    """Runs nginx with these settings while the block runs. Gives the process and its folder."""
    folder = tempfile.mkdtemp()
    os.chmod(folder, 0o755)
    os.mkdir(os.path.join(folder, "logs"))
    path = os.path.join(folder, "conf")
    with open(path, "w", encoding="utf-8") as file:
        file.write(f"daemon off; pid {folder}/pid; error_log {folder}/errors notice;\n{settings}")
    process = subprocess.Popen([*prefix, nginx, "-p", folder, "-c", path])
    try:
        connect(port).close()
        yield process, folder
        process.send_signal(signal.SIGQUIT)
        process.wait(300)
    finally:
        process.kill()
        process.wait()
        shutil.rmtree(folder)


def read_answer(connection):
    """Reads one answer of LENGTH bytes."""
    text = b""
    while b"\r\n\r\n" not in text or len(text) < text.index(b"\r\n\r\n") + 4 + LENGTH:
        more = connection.recv(4096)
        if not more:
            raise EOFError("the connection was closed")
        text += more
    if not text.startswith(b"HTTP/1.1 200 "):
        raise ValueError(text[:40])
