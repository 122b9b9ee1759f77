# SPDX-License-Identifier: MIT
"""What the tests of the server share: a server at a free port, connections to it, and the count of faults."""

import os
import random
import re
import signal
import socket
import subprocess
import sys
import tempfile
import threading
import time
from contextlib import contextmanager, suppress
from pathlib import Path

# The line that each server says at its start.
SERVES = re.compile(r"(?m)^segcache-server: serves .+\n")

# What each server is started with: root has to name a user. To others it says nothing.
RIGHTS = ["-u", "nobody"]

BAD = "CLIENT_ERROR bad command line format\r\n"
TOO_LARGE = "SERVER_ERROR object too large for cache\r\n"

faults = 0
first = False  # the first fault ends the tests
servers = []
patience = 30  # seconds that a reply may take
doing = threading.local()  # .test: the name of the test that this thread makes


def check(right, what):
    global faults
    if not right:
        faults += 1
        print(f"not so, in {getattr(doing, 'test', 'a thread')}: {what}", flush=True)
        if first:
            leave()


class Server(subprocess.Popen):
    """A server's process. What it says is shown in the end, without the line at its start. Where a test is broken off,
    it doesn't wait for the server's end."""

    def __init__(self, words, **more):
        self.said = tempfile.TemporaryFile("w+", errors="replace")
        super().__init__(words, **{"stderr": self.said, **more})

    def __exit__(self, kind, *others):
        if kind is not None:
            self.kill()
        ended = super().__exit__(kind, *others)
        self.tell()
        return ended

    def tell(self):
        if not self.said.closed:
            self.said.seek(0)
            sys.stderr.write(SERVES.sub("", self.said.read(), count=1))
            self.said.close()


def start(words, **more):
    """Starts a server."""
    servers.append(server := Server([*words], **more))
    return server


def leave():
    """Ends the tests at once, and all servers."""
    for server in servers:
        server.kill()
    for server in servers:
        with suppress(ValueError):  # its own test has told it meanwhile
            server.tell()
    os._exit(1)


@contextmanager
def shared_folder():
    """A folder that the server's user can write to as well as the tests' own."""
    with tempfile.TemporaryDirectory() as folder:
        os.chmod(folder, 0o777)
        yield folder


def free_port():
    """A port below those that Linux gives to connections, which come and go meanwhile."""
    while True:
        with socket.socket() as free:
            port = random.randrange(10000, 32000)
            if free.connect_ex(("127.0.0.1", port)) != 0:
                return port


def wait_for(port, server=None):
    """Waits until a server listens, which may have ended."""
    for _ in range(400):
        if server is not None and server.poll() is not None:
            break
        try:
            return socket.create_connection(("127.0.0.1", port)).close()
        except ConnectionRefusedError:
            time.sleep(0.025)
    raise SystemExit(f"nothing listens at port {port}")


@contextmanager
def served(words, port, **more):
    """The process of a server that listens at a port, and ends well when it is told to or before."""
    with start(words, **more) as server:
        try:
            wait_for(port, server)
            yield server
        finally:
            server.send_signal(signal.SIGTERM)
            try:
                status = server.wait(timeout=2 * patience)
            except subprocess.TimeoutExpired:
                server.kill()
                status = "no end"
            check(status == 0, f"{words} ended with {status}")


@contextmanager
def running(command, *options, port=None):
    """A server at a port of this machine: its port."""
    port = port or free_port()
    with served([*command, "-l", "127.0.0.1", "-p", str(port), *options], port):
        yield port


def said_by(server):
    """Tells a server to end, and returns what it has said on standard error beside the line at its start."""
    server.send_signal(signal.SIGTERM)
    text = server.stderr.read()
    check(len(SERVES.findall(text)) == 1, f"one line says what is served: {text[:1000]}")
    return SERVES.sub("", text)


def wait_until(is_so):
    """Whether something is so within ten seconds."""
    for _ in range(200):
        if is_so():
            return True
        time.sleep(0.05)
    return False


def connect(port):
    connection = socket.create_connection(("127.0.0.1", port), timeout=patience)
    connection.setsockopt(socket.IPPROTO_TCP, socket.TCP_NODELAY, 1)
    return connection


def read(connection, length):
    """So many bytes, or those that came before the connection ended or was silent for long."""
    got = b""
    try:
        while len(got) < length and (more := connection.recv(65536)):
            got += more
    except TimeoutError:
        pass
    return got


def read_to(connection, end):
    got = b""
    while not got.endswith(end) and (more := connection.recv(65536)):
        got += more
    return got


def say(connection, sent, wanted):
    """Sends a line or more, and reads as much as is wanted."""
    sent, wanted = sent.encode(), wanted.encode()
    connection.sendall(sent)
    got = read(connection, len(wanted))
    check(got == wanted, f"{sent[:80]} is answered {wanted[:120]}, and not {got[:120]}")


def stats_of(connection, part=""):
    connection.sendall(f"stats {part}".strip().encode() + b"\r\n")
    lines = read_to(connection, b"END\r\n").decode().split("\r\n")
    return dict(line.split(" ", 2)[1:] for line in lines if line.startswith("STAT "))


def alone(connection):
    """The stats, once this connection is the only one: others end when their worker sees it."""
    wait_until(lambda: stats_of(connection)["curr_connections"] == "1")
    counts = stats_of(connection)
    check(counts["curr_connections"] == "1", f"the others have ended: {counts}")
    return counts


def memory_of(pid, name="VmRSS"):
    """The resident memory of a process, in KiB. VmHWM: the most that it ever was."""
    return int(Path(f"/proc/{pid}/status").read_text().split(f"{name}:")[1].split()[0])


def store_all(connection, count, value="x"):
    """Stores so many keys, and says how many of them are there then."""
    keys = [f"key{i}" for i in range(count)]
    for key in keys:
        connection.sendall(f"set {key} 0 0 {len(value)} noreply\r\n{value}\r\n".encode())
    return count_there(connection, keys)


def count_there(connection, keys):
    there = 0
    for at in range(0, len(keys), 5000):
        connection.sendall(("get " + " ".join(keys[at:at + 5000]) + "\r\n").encode())
        there += read_to(connection, b"END\r\n").count(b"VALUE ")
    return there
